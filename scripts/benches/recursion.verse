# Look at: a function that calls itself twice.
Fib(N:int):int =
    if (N < 2):
        N
    else:
        Fib(N - 1) + Fib(N - 2)

Main():void =
    Print("{Fib(25)}")
