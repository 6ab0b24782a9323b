module Main exposing (..)


apply f x y =
    f x y


first a _ =
    a


swap ( a, b ) =
    ( b, a )


getX { x } =
    x


adders =
    \a -> \b -> a + b


unit () =
    1
