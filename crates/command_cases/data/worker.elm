main : Program () () ()
main =
    Platform.worker
