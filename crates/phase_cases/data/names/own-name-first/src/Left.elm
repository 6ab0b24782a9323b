module Left exposing (size)


size =
    2
