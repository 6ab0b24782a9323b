module ComparedAndJoined exposing (..)

f a b =
    ( a < b, a ++ b )
