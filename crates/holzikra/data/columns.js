let é = "😀";
	let ü; let é; 