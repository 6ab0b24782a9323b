port module Main exposing (main)

port out : Int -> Cmd msg

