module UsesBefore exposing (..)

f =
    g + "a"


g =
    1
