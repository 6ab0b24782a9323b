module Main exposing (..)


choose c a b =
    if c then
        a

    else
        b


inside n =
    1 + (if n < 0 then 0 else n)
