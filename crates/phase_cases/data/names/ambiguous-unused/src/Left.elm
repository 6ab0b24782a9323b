module Left exposing (height, size)


size =
    1


height =
    2
