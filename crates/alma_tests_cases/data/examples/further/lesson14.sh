alma compile up.al up.obj
alma compile down.al down.obj
yes ab | head -400 >turns.txt
alma pool turns.txt up.obj down.obj
