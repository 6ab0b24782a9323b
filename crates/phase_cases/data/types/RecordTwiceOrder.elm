module RecordTwiceOrder exposing (..)

f : { b : Int, a : String }
f =
    { a = 1, b = "x" }
