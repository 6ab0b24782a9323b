module G exposing (..)
