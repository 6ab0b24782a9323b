module Other exposing (..)
