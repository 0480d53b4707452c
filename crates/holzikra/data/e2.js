{ { var a } let a }
