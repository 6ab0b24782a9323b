module LambdaPattern exposing (..)

f =
    \( a, b ) c -> [ a, b, c ]
