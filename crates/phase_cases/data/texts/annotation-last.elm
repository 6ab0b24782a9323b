module Main exposing (..)

size : Int
