# A run over a horizon. Look at: the loop has no end, and `--until 3500` ends the run before the
# turn at 4000. The task that waits for an event that never comes is the second live wait.
Main()<suspends>:void =
    Never := event(){}
    spawn{Listen(Never)}
    loop:
        Sleep(1.0)
        Print("tick")

Listen(E:event())<suspends>:void =
    E.Await()
    Print("never printed")
