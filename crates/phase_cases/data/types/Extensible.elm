module Extensible exposing (..)

type alias N a =
    { a | name : String }


f : N a -> N a
f r =
    { r | name = r.name ++ "!" }
