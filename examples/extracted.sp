* An inverter as extraction from a layout gives it: wires are resistors, and their pieces nets of their own.
.SUBCKT RINV A ZN VDD VSS
*.PININFO A:I ZN:O VDD:P VSS:G
R1 A A:1 12.5
MP1 ZN:1 A:1 VDD VDD PCH W=0.63u L=0.05u
MN1 ZN:1 A:1 VSS VSS NCH W=0.415u L=0.05u
R2 ZN:1 ZN 40
.ENDS
