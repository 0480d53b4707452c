var r = /a+/g;
