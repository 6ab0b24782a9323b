module FieldOrder exposing (..)

f r =
    r.b + r.a
