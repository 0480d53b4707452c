let eval
