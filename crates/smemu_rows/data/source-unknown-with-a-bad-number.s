frob #00
