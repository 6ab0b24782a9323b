module Pow exposing (..)

f a b =
    a ^ b + a // b
