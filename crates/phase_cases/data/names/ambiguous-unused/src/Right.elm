module Right exposing (size)


size =
    3
