module Data exposing (..)
