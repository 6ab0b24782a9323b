module C exposing
import Main
