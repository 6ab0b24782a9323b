module Units exposing (..)

x =
    () < ()
