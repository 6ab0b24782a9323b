port out : Int -> Cmd msg
import Main
