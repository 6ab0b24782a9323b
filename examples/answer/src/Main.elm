port module Main exposing (main)

port out : Int -> Cmd msg

main : Program () () ()
main =
    Platform.worker
        { init = \_ -> ( (), out 42 )
        , update = \_ m -> ( m, Cmd.none )
        , subscriptions = \_ -> Sub.none
        }
