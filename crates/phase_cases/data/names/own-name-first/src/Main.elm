module Main exposing (main)

import Left exposing (size)


size =
    1


main =
    size + Left.size
