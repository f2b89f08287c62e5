name:='harbor'

build:
	cargo build --package {{name+'-cli'}}

first:

second:

third:

fourth:

last := name