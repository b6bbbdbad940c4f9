alma link run coins.al till.al
alma link compile till.obj coins.al till.al
alma exec till.obj
