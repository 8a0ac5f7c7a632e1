#define M0 ADDQ \
 ADDQ ( ( MOVQ ) )
#define M1 M0 \
 : ( - ) ( M0 )
#define M2 M1 \
 ( ADDQ ) ( ( + ) ) -
#undef M2
#ifndef M1
#ifdef M0
#ifndef M1
	M0 M1 M1 M1 /* one */
	ADDQ // a comment
	. M1 ( ( M0 ) ) 0x10 ADDQ /* one */
#else
	. M1 $ M1 M0 /* one */
	M1 // a comment
	M1 M1
#endif
	. ( $ ) // a comment
#endif
#ifdef M0
#ifdef M0
	M1 M1 M1 << - // a comment
#endif
#endif
	M1 M1 ( M0 ) 0x10 M1 /* one */
	( M1 )
#endif
#define M3 M1 - M0 M1
#undef M3
#undef M1
#define M4 M0 M0 M0 + M0
#define M5(a, b, c) 
	M0 M0 M5 (( ( -> ) ),,) BX M4 // a comment
#define M6 
	M5(<<, $, ) M4 M6 // a comment
#ifdef NONE
	ADDQ // a comment
	M4 M5 (,M6 ADDQ,M4 M6) /* one */
#ifndef NONE
#ifdef NONE
	M4
#else
	M5 (M5 (M4,,M6 .) M4,M0 ->,)
	M0 ( M6 )
#endif
	M4 M0 M0 ADDQ M4
	M6 M4 R8 BX AX // a comment
#else
	M4 ->
#ifndef M4
	BX ADDQ // a comment
	M4 M6 8 M4 // a comment
#else
	M6 M0 M5(ADDQ ->, , ) /* one */
#endif
#ifndef M4
	M6 ADDQ M4 // a comment
	M0 // a comment
#endif
	ADDQ M0 M5 (M5(M4 AX, M4, ( BX )) M4,M0,M0) ( M6 ) M6
#endif
#ifndef M6
	$ M4 // a comment
	MOVQ // a comment
#ifndef M5
	8
	( MOVQ ) M4 M0 /* one */
#else
	M5(, M5 (M5(BX MOVQ, , AX),,M5 (- .,,-> 8)), M4) + ( -> ) /* one */
	-> M0 /* one */
	<< << ( M0 ) M5 (,+,) ( 0x10 ) /* one */
#endif
#ifdef M6
	M6 M0 BX BX M6 /* one */
#else
	R8 - ( M4 ) M5(( M0 ) M0, M6 M5 (M0,M0 MOVQ,M6), M4)
	R8 AX
	M0 BX M6 M4 M6 /* one */
	M4 M6 M5 (,.,M4) R8 /* one */
#endif
#else
#ifdef NONE
	R8 M5(BX 8, M5 (->,M4 MOVQ,M4 ( MOVQ )) ( M6 ), M5(: M4, M6, )) M6 // a comment
	M5(M4, , ) ( M5(BX, , 8 M4) ) /* one */
	M5(, M4 M4, M6) // a comment
#else
	M6
#endif
#endif
#endif
#undef M6
#define M7(a, b) BX BX a
	M0 M4 M0 ( M4 ) /* one */
#ifndef NONE
#ifdef M5
#ifdef NONE
	R8 : BX /* one */
#else
	M7(( M4 ) M7 (,M7(MOVQ, 8 8)), ADDQ M4) BX /* one */
	M5 (,M4 0x10,MOVQ) M7(, ) // a comment
#endif
	AX // a comment
#ifdef M5
	M7 (,8) 0x10 M0
#else
	ADDQ ( 8 ) M5 (M7(, M7(, 0x10)),MOVQ M7(, ),M5(M0, <<, R8) ->) MOVQ // a comment
#endif
	0x10 8 8 AX
#endif
#else
	M5(M0, M4 M0, M5(, ADDQ, ( 8 )) 0x10) M7(BX ., -> R8) M5 (M7(, ) M4,M5(, M0 MOVQ, ),) MOVQ BX
#ifdef M4
#ifndef M4
	M5(, , M0) /* one */
	( BX ) // a comment
	M5(, M4 M7 (M7 (,AX) M4,8), M0 M5(M5 (<< MOVQ,8,), ( -> ), )) M7(, ( M4 ) M5(, M0 M7 (,MOVQ), M7 (,. :))) .
#else
	AX M0 M4 M0
	M7(-> M7 (( : ),M7(, )), M7(, M0)) M7 (M0 M4,) M0 /* one */
#endif
#else
	-
	M7 (->,) BX
#ifndef M5
	M7(, M7(, M4 M0)) ( M5 (M5 (,. .,-),,:) ) $ M5(M5(, M0, R8) ., $ <<, ) M7(M0, ) // a comment
	M0 /* one */
#else
	M4 M5(M5(AX M4, M0 M4, 8 MOVQ) $, ( M7 (,) ) M0, M4) MOVQ ( BX ) M4
	( ( M4 ) ) M0 M0 << << /* one */
	M7(ADDQ 0x10, ) /* one */
#endif
#ifdef M4
	R8 ( : ) + // a comment
#endif
#endif
#ifdef M4
#ifdef M4
	M7 (( M7 (<<,) ),BX) M4 M0 /* one */
	M0 M4 /* one */
#else
	M4 /* one */
	<< /* one */
#endif
#else
#ifdef NONE
	M0 M0
	M4 M4 M5 (M5(MOVQ, $ -, M5 (-> 8,$ MOVQ,<< ADDQ) M7(, -> MOVQ)),.,) /* one */
	+ M4 M4 /* one */
	M0 -> /* one */
#else
	M7(<<, ) ( M5 (M4,:,) ) M0 /* one */
#endif
#ifdef M5
	AX M5 (M5 (( + ),,M4) <<,( M4 ),R8) ADDQ M0 M4 /* one */
	8 M0 ( M4 )
	M7 (+,M0 M7 (,M7 (<< .,) ->)) M4 ( M5(( 8 ), , :) ) 0x10 // a comment
	( M4 ) // a comment
#endif
#ifndef M0
	M4
	M0 0x10
	+ M5 (M7(, M0 -) M5 (M0,,:),( M5 (+ ->,AX,) ),) /* one */
	M4 AX /* one */
#else
	: M7(BX, :) M4 // a comment
	-> // a comment
	M5(M7 (( $ ) M5 (.,-> +,MOVQ),), M0 ( AX ), M4) M4 ( -> ) // a comment
	. M7 (M0 0x10,+ M7(, )) M4 BX M0
#endif
#endif
#endif
#define M8() 0x10 . M7(:, )
#ifdef M0
	M4 M7 (M0 $,M8 ()) M5(M0, M7(M5(BX ->, , <<), ADDQ MOVQ), + ( M0 )) M7 (MOVQ +,M4 ( - )) M0
	M4 8 // a comment
	M4 /* one */
#endif
#ifndef M5
	M8 () // a comment
#ifdef M8
	8 M0 - ( AX ) M7(M7 (,) M0, . M0) // a comment
#else
	$ << /* one */
	M8 ()
#endif
#else
	M0
	M5 (AX,( M8 () ),AX) M4 ( M7 (->,M5 (,<< -,<<) -) ) ( BX ) M7(BX R8, M5 (M8 (),,->) AX) /* one */
	M0 M7 (M4,( 0x10 )) - -> /* one */
#endif
#define M9(a, b) 
#ifdef M5
#ifndef M8
	M4 M9 (M8(),BX M7($, M0 M8())) /* one */
#ifndef M4
	M7(AX M0, M4) M0 ( 0x10 ) // a comment
	: // a comment
#else
	M8() /* one */
#endif
#ifndef M9
	M4 BX // a comment
	$
#else
	<< -> MOVQ
#endif
#else
	( M9 (,M5 (0x10,BX,)) ) M4 AX
	.
#ifdef M9
	: M5(0x10, , M5(, M9(AX, R8) M0, ( -> )) M5(ADDQ, , M9(, R8 ->) M5(, , ))) R8 M9 (,$)
	+ // a comment
	M0 BX // a comment
	M4 M4 BX ( - ) -> // a comment
#else
	: - M0 M9(M9(, $ M9(8, :)) $, ) M8 ()
	+ M5(M5 (- MOVQ,<<,M0) M0, , ) M0 M8 () M0 // a comment
#endif
#endif
	M8 () M4 /* one */
#endif
#define M10 M5(, M8 (), ) M4 M4 AX 0x10
#define M11 M7 (+ M0,M4) . -> $ .
#define M12 BX : ( M5 (,+,AX 8) ) : \
 M0
#define M13(a, b, c) c MOVQ ( c ) a
#define M14() \
 ( M13 (ADDQ +,,AX) ) -
	M11 ( ( BX ) ) M9 (R8,M8() M7(M13($, , ) M8(), )) M4 ( M14() ) /* one */
#define M15(a) ADDQ \
 M14 ()
	( . ) ADDQ
	M14 () AX M4 M12 /* one */
#ifndef M11
	( M11 ) R8 R8 M12 ( M9(, 0x10 M8()) ) // a comment
#ifndef M13
#ifndef M9
	MOVQ M8 () // a comment
	-> M13(M12, 8 M0, 0x10 :) M10 // a comment
#else
	AX 8 M11 - M12 /* one */
	M9 (.,M4) /* one */
	+ 8 ( M12 ) // a comment
	8 M14 () M13 (( M10 ) M0,+,) M4 ( BX )
#endif
#ifndef NONE
	M4 M12 /* one */
	M4 /* one */
#else
	M0 : $ M7(M0, ( - )) M13(M7 (( 0x10 ),), , ) // a comment
	M11 M13 (0x10,,) /* one */
	M8() MOVQ BX M5 (M0,M9(, M10),M4 M9 (M7(BX, :) BX,M7 (->,) M7(, <<))) M11 /* one */
	M11 << /* one */
#endif
#endif
#else
	M13 (M4 ADDQ,<< 8,) ( M10 ) << M7 (M4,) M12 // a comment
	ADDQ
#ifndef M5
#ifdef M11
	M14 ()
	<< // a comment
	8 M14() // a comment
#else
	MOVQ M13 (,M8(),M8 () -) /* one */
	R8 : $ ADDQ /* one */
	. ( BX ) MOVQ /* one */
#endif
	ADDQ M15 (-) M4
#ifndef M10
	. : M0 BX M12 /* one */
	MOVQ . R8 M5 (M8() M9 (M7 (AX 0x10,<< +),),AX,M13 (,( 8 ),) M11)
	M8() M0 // a comment
#else
	M8() M9 (M9(M4, ),M15(-)) // a comment
	M12 M9 (,M13(R8 ADDQ, , M10 R8) +) AX M15($) // a comment
	M9(, . BX) M14 () 8 /* one */
#endif
#endif
	M5(( ( BX ) ), , ) ADDQ . M7 (,M0 .) // a comment
#endif
#ifndef M5
	ADDQ M14 () M15() M13 (M7 (M9 (+ .,),( MOVQ ) $) M13(0x10, ( $ ) M14(), ),M4 M13(( $ ), M11 M4, ),) /* one */
#else
	<< M12 M12 ( M12 ) -
#ifdef M10
#ifdef M12
	M7 (M4 M13(, M9 (,), ),) M4 ( - ) M15 (M15 (<<)) // a comment
#else
	<< M13 (M12,ADDQ,) R8 M15 (M13 (M0,M8(),. 8)) M15(MOVQ) /* one */
	M0 MOVQ M13 (8 AX,8 M13(M9(AX MOVQ, ) M11, ( $ ), M13(MOVQ, , -)),M10 M12) M13 (( M15 () ) ADDQ,,( ( R8 ) ))
	R8 $
#endif
	M12 $ /* one */
#ifndef M9
	-> M9(, ) : /* one */
	M13(-, , ) M15(( $ ) M7(- M13($, . ., AX), M5(<< MOVQ, -, :))) M0 M13 (MOVQ,,M0) // a comment
	M15 () M14 ()
	->
#else
	M11 MOVQ - $ M13($ M0, , ) // a comment
	8 M14 () ( - )
	M13 (0x10,,M12 0x10) M12 AX /* one */
#endif
#ifndef M12
	M14() ADDQ - /* one */
#else
	M5($, M5(-> M0, BX, 0x10) ->, M9 (,)) 8 $ M13(M10, ( M8() ) BX, ) M10 /* one */
#endif
#endif
#ifdef M11
	R8 M0 // a comment
	M13(BX ( BX ), M11 M5 (->,,), ) M12
#endif
#endif
#define M16 ADDQ M14 () $
#define M17 \
 <<
#ifndef M7
	M4 M11 +
#else
#ifdef M12
	M7(, M15() M0) // a comment
#else
#ifdef M9
	M15 (.) M10 M10 /* one */
	M10 -> // a comment
	M12
	BX : M17 ( M15() ) ( 0x10 ) // a comment
#else
	M15 (+ M12) M14 () $ 8 R8 // a comment
	M16 M7(R8 0x10, M13 (( ADDQ ),M7 ($ AX,) M14 (),MOVQ M9 (AX,ADDQ :)) M4) M11 /* one */
	M11 /* one */
#endif
	M14() M14() M9(M12, ) M13(, R8, M8 ()) ( BX )
#ifndef M16
	M0 R8 8 ( $ )
	AX BX . $
	M4 M11
#else
	M13 (<<,M11,) // a comment
	M12 MOVQ << M12 // a comment
	( -> ) M4 M4
	M4 /* one */
#endif
#endif
	M17 << M17 M15(M13(, ., M9 (,AX R8) M10) +) :
#endif
#define M18() ->
#ifdef M13
#ifndef M15
	$ M18 () <<
#ifndef M5
	M11 M15 () ( M18 () )
	M10 ADDQ
	ADDQ 0x10
#else
	: -> // a comment
	AX << M4 M7(, ) R8
#endif
	M0 AX M17 M16 // a comment
#ifdef M14
	M7(, 8 $) ( M12 ) BX // a comment
	8 M10 // a comment
	ADDQ
#endif
#else
#ifdef M15
	M17 M13(BX M8 (), , MOVQ ( M0 ))
	M9 (M7 (AX,),<<) M12 M5 (M0 M12,M14 () M17,M15($ M4))
	M4 M7(, ) M4 // a comment
	M13(M8() M10, M5(, + M4, ) M16, ( BX ) M5 (,8,( - ))) ( M13(MOVQ ADDQ, M4 M13(R8 ->, AX, ), MOVQ) ) M15(AX ->) M7 (M4 ->,M12) // a comment
#endif
#endif
	M14() /* one */
#else
#ifdef M15
	M17 R8 << M16 /* one */
	M17 ( + ) /* one */
#ifdef M7
	M11 ( - )
	M16 /* one */
	8 BX . // a comment
#endif
	M11 ( -> ) M10 // a comment
#endif
	M9(-, ) M8() 8 -> M7(( M18() ) M5(M9 (8 $,- .), M0, ), ) // a comment
	+ -> M10 // a comment
#ifndef M12
	M8() : + MOVQ // a comment
#endif
#endif
#undef M18
#define M19 
	( M16 ) /* one */
#ifndef M8
	M19 AX // a comment
#else
	( M16 ) M16 M10 M10 ( : )
#endif
#ifndef NONE
#ifdef NONE
	MOVQ M15 (M8 () ( -> )) AX M19 BX
	M8() M16 R8 M19 // a comment
	: M19 M5 (0x10,( -> ) M10,8) M14() M0 // a comment
#else
#ifndef M15
	M13(. ADDQ, M5 (( -> ) M17,8 M16,M5 (+ 8,R8 $,8 MOVQ)), M7(-> ->, ) ->) M8 () . 8 AX
	( M4 ) - R8 ( R8 ) /* one */
#else
	ADDQ // a comment
#endif
#ifdef M14
	M12 M11 // a comment
#else
	ADDQ M8 () M9 (( M16 ) R8,M0 M5 (,M9(, ADDQ 8) 8,)) M9 (M8() M5 (M14 (),M9(8 ->, ) MOVQ,->),) M16
#endif
	<< // a comment
#endif
	M10
#ifndef M12
	M0 << M19 // a comment
#ifdef M19
	M19 M4
	M17 . M13(M7 (M0,), M15(M16 8) M7(( MOVQ ) ->, ), ) // a comment
	. M13(0x10 BX, , ) M19 M13 (,,M13 (0x10 -,. M10,<< <<)) M5(, ( M7(, ) ), : :) /* one */
#else
	M10
	MOVQ :
#endif
#else
#ifndef M8
	<< // a comment
#else
	( M12 ) 8 /* one */
	+
#endif
	( ( + ) ) M0 - M10 +
	-> BX
#ifndef M10
	M9(M15 () ADDQ, ) /* one */
#else
	( -> ) M4 M4 ->
	M11 - /* one */
	<< ADDQ /* one */
#endif
#endif
#endif
	AX /* one */
	M8() // a comment
	MOVQ M4 M5(0x10 ., M7(, M9 (,. ->)), +) // a comment
#define M20() ( M12 ) M11 \
 M12
#ifdef M17
#ifndef M0
	M9(R8 BX, M0) : M8 () ( R8 ) M5 (M15() M20 (),R8 0x10,)
#ifndef M16
	0x10 // a comment
	MOVQ M11 M10 // a comment
#endif
	M10 M5(, R8 AX, ) M4 M5(( M13(, AX, <<) ) M12, M7(, ), MOVQ) M11 // a comment
	( M0 ) M16 // a comment
#endif
#ifndef M0
	( M16 ) M20 () 8 M7(, )
	( M11 ) M10 ( . )
#ifndef M4
	M14() M12 M19 AX M19
#endif
#ifndef M12
	M9(M0 ( MOVQ ), ( : ) ( AX )) $ . :
#endif
#else
#ifdef M19
	M8 ()
	( 8 ) M9(, BX) M20 () // a comment
	BX BX M19 M14() M17
	( BX ) /* one */
#endif
#ifndef M12
	AX M7 (AX,) M14 () M11 M5 (-> M11,,M17 M17) /* one */
	ADDQ
	8 M16 // a comment
	( M20 () ) ( + ) BX M12 ( M12 ) // a comment
#endif
#endif
#else
	( M14 () )
#ifndef M20
	ADDQ BX // a comment
	BX M15(->) // a comment
#endif
	M8 () // a comment
#endif
#ifndef M5
	M17 M20 () -> M15 () . /* one */
	-> M13(M5(M4 M0, M12 M0, ) M9(, ), BX M7 (,), )
#ifndef M15
	M5 (M5 (,M12 M14(),M4),M13 (M13(, -, ) ->,BX,M20 () M10) M19,) M14 () M0 // a comment
#ifdef M13
	BX : /* one */
	M11 M14 () // a comment
	M13 (,M13 (,M8(),0x10 M14()) M15(+ M5(, 8 ADDQ, +)),8) M19 << /* one */
	M19 M12 M8() MOVQ M5 (8 M8(),,MOVQ M8 ()) // a comment
#else
	M17 $
	M7 (,<<) M9 (-> M10,<< M20())
	M20 () . // a comment
	M14 () MOVQ . /* one */
#endif
#ifdef M15
	$ /* one */
	R8 R8 M15(M7 (,))
	BX : << M8 () M14() /* one */
#endif
#else
	AX -> M4
	0x10 -> . M14() /* one */
#ifndef M7
	M5(BX, ( M20 () ), ( - )) <<
#endif
#endif
	- ( + ) M19 M11 M15 (M7 (MOVQ M17,) M5(, M15() ->, )) // a comment
#endif
#define M21(a) 8 a + AX M0
#define M22(a) \
 AX a $ a
	M8 () M19 /* one */
	( M12 ) M10 // a comment
#ifdef M19
	BX M11 // a comment
#else
#ifdef M9
	R8 8 MOVQ M0 M5(, AX M9(M22(<<) M9(8, :), ), M21 (M20 ()) ( M12 )) /* one */
#else
	M16
	M17 // a comment
#endif
#ifdef M16
	M20() ( 8 ) - M22 (<< M8 ()) M14 () /* one */
	M16 R8 // a comment
#ifndef M0
	M21() M14 () M14() ( ( MOVQ ) ) // a comment
	M22() M20() MOVQ M10 // a comment
	M11 M17
	<< // a comment
#endif
#ifdef M8
	M20 () M5(-> M8 (), , ) // a comment
	M9(, M9(, M10 M17))
#else
	M8 () ( 0x10 )
	MOVQ + - M19 - /* one */
	+ . M22(M9 (M0 M21 (),M10) 8) /* one */
	- M16 M10 -> ( M14() ) // a comment
#endif
#endif
#endif
#define M23(a, b) b .
#define M24 M5(M13(<< ADDQ, ADDQ ADDQ, 0x10 ->) :, M20 (), M12)
	M23 (-> M14(),M7 (,-> MOVQ) <<) M16 R8 MOVQ M0 /* one */
#define M25 \
 M20 ()
#define M26(a, b) :
