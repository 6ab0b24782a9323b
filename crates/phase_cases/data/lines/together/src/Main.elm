module Main exposing (..)


isEven n =
    if n == 0 then
        True

    else
        isOdd (n - 1)


isOdd n =
    if n == 0 then
        False

    else
        isEven (n - 1)


late =
    early


early =
    1
