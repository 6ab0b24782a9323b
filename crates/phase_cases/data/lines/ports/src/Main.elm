port module Main exposing (..)


port out : List Int -> Cmd msg


port told : Maybe String -> Cmd msg


port both : ( Bool, () ) -> Cmd msg


port point : { y : Int, x : List String } -> Cmd msg


port inp : (Int -> msg) -> Sub msg
