module MissingArgument exposing (..)

f =
    String.length "a" "b"
