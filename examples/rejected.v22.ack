HDRSO000000000CWR REGISTRY                                 01.102024060109000020240601               2.2001CWR REGISTRY                  1.0                           
GRHACK0000102.200000000000  
ACK0000000000000000202405011200000000100000000NWRSONG ONE                                                    W1                                      20240601RJ
MSG0000000000000001T00000000NWRT011PR OWNERSHIP TOTAL IS NOT VALID                                                                                                                       
GRT000010000000100000004             
TRL000010000000100000006
