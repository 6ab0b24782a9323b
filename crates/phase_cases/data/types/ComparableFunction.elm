module ComparableFunction exposing (..)

f =
    List.sort [ \x -> x ]
