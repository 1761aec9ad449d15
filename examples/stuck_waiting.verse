# Nothing will ever come. Look at: two tasks wait for each other, so no wait has a moment, and
# the run ends as `waiting` at once, however long the horizon is.
Main()<suspends>:void =
    Ping := event(int){}
    Pong := event(int){}
    sync:
        block:
            N := Ping.Await()
            Pong.Signal(N)
        block:
            N := Pong.Await()
            Ping.Signal(N)
