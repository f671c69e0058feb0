# completion of formatread for fish
complete -c formatread -f -a 'format asm diagnostic diagnostic-named'
complete -c formatread -l literal -d 'Read a string literal, as it is in a program, in place of a text'
complete -c formatread -l args -x -d 'Compare the placeholders with these arguments: how many there are by position, and the names of the others, as in 2,w'
