module Only exposing (..)
