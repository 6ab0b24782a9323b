port module Data.Tree exposing (..)
import Data
