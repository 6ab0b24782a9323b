module Compappend exposing (..)

f : compappend -> compappend -> ( Bool, compappend )
f a b =
    ( a < b, a ++ b )
