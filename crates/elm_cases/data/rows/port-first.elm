port size : Int -> Cmd msg
