import a from "b";
