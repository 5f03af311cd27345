/* A telling code point for each byte from 80 to FF of a spelled text: marks, letters with marks and others that the calls tell apart;
 * the last three are outside the table. input.c and seeds.py read this. */
u"\u0300\u0301\u0302\u0303\u0304\u0306\u0307\u0308\u030A\u030B\u030C\u030D\u030F\u0311\u031B\u0323"
u"\u0324\u0325\u0327\u0328\u032D\u0331\u0338\u0340\u0341\u0343\u0344\u0345\u034F\u0358\u035C\u036F"
u"áàâāăǎéèêēĕěíìîīĭǐóòôōŏǒőúùûūŭǔűńǹňḿÁÀÂĀÉÈÊĒÍÌÎĪÓÒÔŌŐÚÙÛŪŰŃǸḾ"
u"ǘǙǖṳṲọỌộấớựơƯṍṓṻốồǭⁿᴺ·ʒÅñÑ≠≮ẞDŽɏ"
u"\u0250\u1D39\uFFFD"
