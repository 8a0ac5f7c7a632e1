	( ( ( R8 ) ) ) // a comment
	BX ( ( - ) ) + -> ( ( ( . ) ) ) // a comment
	( ( ( + ) ) ) ( R8 ) ( MOVQ ) ( << ) : // a comment
#ifndef NONE
	( ( ( -> ) ) ) /* one */
	+
#endif
#define M0() ( ( BX ) ) - ( ( -> ) ) ( ( BX ) ) MOVQ
	M0 () // a comment
	. R8 M0 () - 8
#ifndef NONE
#ifndef M0
	ADDQ
	M0() M0() // a comment
	MOVQ M0 () ( M0 () ) M0() << /* one */
#else
	M0 ()
#ifndef M0
	M0() M0() // a comment
	- M0 () M0 () M0() // a comment
	M0 () R8 // a comment
#endif
#endif
#ifdef NONE
	+ M0 () M0 ()
#else
	ADDQ M0 () M0 () M0() // a comment
	<< M0() 0x10 M0 () /* one */
#endif
	M0 ()
#else
#ifdef M0
	M0() . - M0 () /* one */
#else
#ifdef M0
	M0 () // a comment
	M0() M0() M0 ()
	MOVQ << ( M0 () ) M0() ( M0() ) // a comment
	$ MOVQ M0() // a comment
#else
	M0() M0() << M0 () M0() // a comment
	M0() M0() M0 () ( M0() ) // a comment
	MOVQ M0()
#endif
	<< 8 M0 () M0() // a comment
#ifdef M0
	M0() ( -> ) /* one */
	M0() M0() ( M0 () ) M0 () .
	( + ) ( M0 () ) $ MOVQ // a comment
	- . /* one */
#else
	M0 () ADDQ M0() 0x10 /* one */
	. $ // a comment
	+ M0 () -> ( M0 () ) /* one */
#endif
#endif
#ifndef NONE
	MOVQ
	( M0 () ) R8 8 MOVQ M0() // a comment
	0x10 // a comment
	: -> 8 M0() M0 () // a comment
#else
	( M0() ) M0 () : M0 () M0 ()
	M0() /* one */
#endif
#ifdef NONE
#ifdef M0
	+ - BX // a comment
#else
	AX M0 () 8 /* one */
	M0 ()
	M0() $ ADDQ M0()
	M0 () M0() BX
#endif
#ifdef M0
	BX // a comment
	M0() AX
	M0 () M0()
#endif
#ifdef NONE
	$ M0 ()
	M0 () ( M0() ) M0 () // a comment
	M0() M0 () M0() M0() M0()
	M0 ()
#else
	M0 () M0() ( M0() ) 0x10
	M0() R8 M0() ADDQ /* one */
	BX M0() ADDQ M0() /* one */
	<< M0 () M0 () M0() M0 () // a comment
#endif
	R8 M0 () M0 () R8
#else
	M0() ( M0() )
	M0() 0x10 // a comment
#ifdef NONE
	M0 () : :
	M0() M0 () << AX /* one */
#endif
#endif
#ifndef M0
	M0() AX // a comment
	0x10 M0()
	0x10 - /* one */
	M0 () // a comment
#else
#ifdef NONE
	M0 () M0() M0() M0 () // a comment
	:
	M0() M0 () M0() M0() M0()
#else
	M0() R8
	BX M0() M0() // a comment
	M0() M0() 0x10 ( + ) // a comment
#endif
	BX // a comment
#endif
#endif
#undef M0
#define M1() ( ( R8 ) ) \
 ( << )
#ifndef NONE
#ifdef M1
	M1 () M1()
	M1() BX M1 () M1() M1 ()
#else
	+ AX // a comment
#endif
	BX M1 () $ ( M1 () ) M1 () // a comment
#ifndef NONE
	0x10 << /* one */
#else
	M1 () -> M1()
#ifndef M1
	M1() M1 () /* one */
	M1() M1 () M1()
	M1() M1() M1() M1 () /* one */
	- 8 AX M1 () /* one */
#endif
	M1 () BX /* one */
#endif
#endif
	M1() ADDQ ( M1 () ) M1 () MOVQ
#ifndef M1
#ifndef M1
	M1 () M1 () -> M1 ()
#ifdef NONE
	M1 () M1 () -> M1() // a comment
	M1 () BX // a comment
	$ M1() MOVQ ( M1 () ) M1() /* one */
	M1() M1() M1 () M1 () M1() // a comment
#endif
#else
	M1 () M1() . R8 M1 ()
#endif
#else
	M1() + : ( BX ) $
	( ( M1 () ) ) M1 ()
	M1 () -> BX M1 () ( R8 )
	M1() M1() M1 () ( M1 () ) M1 () // a comment
#endif
#define M2 M1() ( M1() ) :
#define M3 M1 () R8
#define M4 + M1 () <<
	M4 $ . M2 BX
	+ AX 0x10 // a comment
#ifdef M1
	M4 // a comment
#endif
	: M1 () /* one */
	ADDQ // a comment
#define M5(a, b) ( M4 ) M1()
#define M6 
#define M7(a, b) a
	<< M7 (,M3) ( M3 ) ( 8 ) M4
	M1() M2 M6 MOVQ
#define M8(a, b) 0x10 M7(, -> R8) \
 M7(, M1()) : MOVQ
#define M9(a, b) a AX ( b ) 0x10 :
#define M10 M3 $ \
 M7(M3, ( - )) M3 MOVQ
#ifdef M1
	8 8
#else
	M9(M7(ADDQ M7(, 8), M10), +) M10 BX
#ifndef M10
	MOVQ M7(, 8) M8(M3 M7(, . M9(, :)), BX R8) ( M1() ) M7 (M4,M2)
#ifndef M7
	+
	M3 M4 M3 $ - /* one */
	$ -> . /* one */
	$ ( + ) 8 // a comment
#endif
	8 M8 (M7(:, ) ( ( + ) ),) // a comment
	( ADDQ ) M10 M2 MOVQ M6
#endif
	M5 (M4 +,ADDQ +) M3 + M4
#endif
#define M11(a, b, c) c b b
	M4 M8(, ( M9 (8,BX) )) . 0x10 M2
#undef M11
#ifdef M7
	M2 M1 () M9(, )
	M2 + M6 : M4 /* one */
	M8 (+,M5(M6 ., )) 0x10 -> // a comment
#else
	M8(, : 8) -> R8 0x10
	M4 $ M2 8
	BX + M4 M1() M4 // a comment
	( M2 ) // a comment
#endif
#define M12(a, b, c) \
 a $
#define M13(a, b) 
#define M14(a, b) BX b a M10
#define M15 \
 M7 (M1(),MOVQ)
	( ( M2 ) ) R8 M3 ( 8 ) // a comment
#define M16(a, b, c) c M9 (,ADDQ M8(c, b))
	M8 (M13 (,M14(BX, AX) M12(AX, BX +, MOVQ MOVQ)),) M12(, M3, M14(:, M6 M16 (- AX,0x10 -,))) ( M13(, ) ) M8 (( ADDQ ) ->,M12 (: M12 (,,$),M12(0x10, , ),) 8)
	MOVQ M2 -
#ifdef M15
	M16 (M9(M10 0x10, ),R8 M1 (),) - /* one */
#endif
#ifndef M5
#ifndef M16
#ifdef M12
	M12 (( M9 (8,ADDQ :) ) M3,,)
	( M2 )
	M14(M15 M1(), M16 (:,M6,) M14 (,( . ))) M15 $ // a comment
#else
	M10 0x10
	M16(+, , ) M3 // a comment
#endif
#ifdef M1
	M10 M14 (,) + // a comment
	ADDQ M9(M10, AX) ( R8 ) /* one */
	:
#endif
#else
#ifdef M10
	M10 M7 (M4,->) << M6 M1() /* one */
	M2 M15 M3 MOVQ // a comment
#endif
#ifdef M15
	M7 (MOVQ,) $ M3 // a comment
	AX ( M1() ) <<
#else
	M15 ( M4 ) M14(., << M16 (,,M9(+, AX +))) BX 0x10
	$ R8 -> /* one */
#endif
#ifdef M8
	<< M8(-> -, R8 M3) M15 + ( M1() )
#endif
#endif
	M8 (M8 (<<,M12 (- +,->,BX R8)),M16 (+ :,R8,M16 (-> R8,MOVQ,)) MOVQ) M16(, M12(( : ), M10 AX, BX) M6, M7(, M3 M9 (BX,AX))) ( M12(, , ) ) ( ( ( ADDQ ) ) ) M6
	M1() M12 (M8 (R8 ADDQ,AX) M9 (M8 (-,:) ->,),,) M12 (M14 (M14(, . ADDQ),M14(, ) 0x10) M15,,) ( BX ) M7 (,) /* one */
#else
	0x10 /* one */
	AX ( ( M2 ) ) ( M5 (,.) ) M14 (,) M3
	ADDQ MOVQ /* one */
#endif
	M14(, ) M6 // a comment
	M2 M7 (M9(M16 (,,. AX), ),( M2 )) ( M12(M10 <<, 0x10 M4, M7(+, ) M2) ) BX M9(M1 () M6, ) // a comment
#undef M16
	-> // a comment
#define M17(a, b, c) \
 $ . <<
	AX << M17(M17(, M10 ( AX ), M10 M7(. +, $)) M4, ( $ ) BX, M12 (,M15,( << )) 0x10) - M4 // a comment
	M4 M5 (M15 M13(, ),) M9(M9 (8,<<), M15 MOVQ) M5 (0x10 M17 (0x10,M12 (,-> +,),M13 (- MOVQ,) ADDQ),->) -
#ifndef M7
#ifdef M6
#ifndef M8
	R8 M3 // a comment
	AX M10 M9(M3 <<, M13(( R8 ) <<, )) M10 /* one */
	M3 /* one */
	M6 : M6 0x10 M12(: ADDQ, M6, ( M5 (AX -,. .) ) M7 (+,)) // a comment
#else
	M6 8 8 M14 (- M1(),M10) // a comment
	M2 M7(, << MOVQ) M10 M2
	M4 M4 /* one */
	M4 ( M10 ) M7(: :, ( M6 ) ->) ( 0x10 ) M12(, , )
#endif
	R8 M13 (<< M12(, M8(:, ) M17 (,,+), AX),M13(, .)) M7(8 M3, M12(M4 0x10, M3, M13 (,) M17(AX R8, :, ADDQ))) /* one */
#endif
	M5(( -> ) M4, M15 ( + )) /* one */
	M3 : /* one */
#endif
#define M18(a, b, c) ->
#ifdef M3
#ifndef M17
	M17 (,M15,R8) /* one */
#ifdef M3
	M1 () M5 (M14(, M9(, -> $)) 0x10,) /* one */
	( M7(, ) ) << M18(M14(, M6 BX), . M1(), ( $ )) : M13(0x10 M13 (8,( + )), ) // a comment
#endif
	BX M4 M10 ( M4 ) /* one */
	M5(, ) M7(, -) M17(M1(), M4 M10, ) /* one */
#endif
	0x10
#ifndef M17
	( M4 ) /* one */
#ifndef M3
	M13 (,( M15 )) ( M12 (( 0x10 ),R8 M6,) ) $ ( M10 ) // a comment
	M4 M6 /* one */
#else
	M5 (,M17(M7 (0x10 :,), + M9(, ), M12 (BX .,+,MOVQ 8) M8(8, 8 :))) 8 -> - R8 /* one */
	M15 - ( M2 ) M17(M8(M1 (), ), ->, ) ( M6 ) // a comment
	: M15 M14(M2, ) ADDQ 0x10
	R8 M2 ( M17(, , R8 M17(BX ADDQ, ->, )) ) /* one */
#endif
#else
	0x10 ( ( M5 (,) ) ) ( BX ) 0x10 M4
#endif
#else
	M5(8, M2 +) 8 /* one */
	( ( M10 ) ) M3 M14($, M1() M7(AX M18(AX R8, , ), M12(, -> :, :) BX)) /* one */
#ifndef M9
#ifdef M12
	M6 MOVQ R8 $
	M9(, . <<) M4 M7(( M10 ) :, ) M6 /* one */
	BX ( MOVQ ) // a comment
	BX M17(( M13(->, ) ) M8 (. ( << ),8 MOVQ), , 8 AX) M17 (<< M3,- M6,) M14(M15, M15) M12 (M10,( M7(:, MOVQ) ),) /* one */
#else
	8 $ M17(<< -, , - M10) M6
#endif
	0x10 M17(0x10 ., M8(, R8), - M5(M3 BX, )) // a comment
	( ( ( $ ) ) ) 0x10
#endif
#ifdef M4
#ifndef M10
	M7(, 0x10) M14(, ->) R8 M5(M10, M6)
	0x10 M17 (M3 AX,:,ADDQ M12 (M1(),M6 M6,ADDQ)) ADDQ
#else
	M5 (M4 M4,( M3 )) M10 8 + // a comment
#endif
#else
	( M6 ) . /* one */
	-> M17 ($ M10,AX,M8(, )) M13(, ) M12(M12(. M9 (:,R8 +), , M4) M14(M12(, AX, . <<), ), . M4, ) M7 (,M8 (M13(+, $ BX) M8 (0x10 8,),) M12 (->,M15,M9 (0x10 $,8)))
#ifndef M17
	AX M6 // a comment
	M9 (AX ( M18(, 8, ) ),) ADDQ /* one */
	- /* one */
	( ( M4 ) ) M5 (( M8 (- AX,ADDQ) ),)
#else
	M12(M3 M2, , M8(-, )) M8 (MOVQ,M3) MOVQ // a comment
	<< ( ( 0x10 ) ) /* one */
	. /* one */
#endif
#endif
#endif
	M1 () M4 M10 // a comment
#define M19(a, b) M17(, M5 (R8,) AX, )
	. AX /* one */
	AX ADDQ M7(<<, MOVQ 8) /* one */
#define M20() << MOVQ M17 (BX,MOVQ M14(-> -, AX),M4 M14 (,<<))
