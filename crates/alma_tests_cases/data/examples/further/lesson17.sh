alma compile walk.al walk.obj
printf '%s\n' 's 1000000' 'p x' o 'b 16' 'p x' o 's 6' 'p x' 'b 100' >walk.txt
alma back walk.obj walk.txt
