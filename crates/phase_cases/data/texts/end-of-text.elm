module Main exposing (..)

x =
