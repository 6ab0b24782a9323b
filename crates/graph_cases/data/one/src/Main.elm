module Main exposing (main)

main = 1
