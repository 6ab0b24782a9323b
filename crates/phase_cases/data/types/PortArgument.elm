port module PortArgument exposing (..)

port out : Int -> Cmd msg

main =
    out ()
