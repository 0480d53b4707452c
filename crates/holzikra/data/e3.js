for (let i in o) { var i }
