module Ant exposing (..)
import Zebra
