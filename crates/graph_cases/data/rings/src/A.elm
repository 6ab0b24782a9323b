module A exposing (..)
