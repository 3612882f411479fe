// Erased from crates/octets_code/src/tables/nibble_moves.rt by tools/erase.
use rattle_std::{self as std, prelude::*};

// Written by tools/tables.py.

use crate::entries::Move::{self, Byte, End, On};

/// The moves of each state, by its number, over the half bytes 0 to 15.
pub(crate) static NIBBLE_MOVES: [[Move; 16]; 256] = [
    [On(19), On(20), On(21), On(22), On(23), On(24), On(25), On(26), On(27), On(28), On(29), On(30),
     On(31), On(32), On(33), On(4)], // 0
    [On(40), On(41), On(42), On(43), On(44), On(45), On(46), On(47), On(48), On(49), On(50), On(51),
     On(52), On(53), On(54), On(5)], // 1
    [On(57), On(58), On(59), On(60), On(61), On(62), On(63), On(64), On(65), On(66), On(67), On(68),
     On(69), On(70), On(71), On(6)], // 2
    [Byte(0, 85), Byte(0, 86), Byte(0, 87), Byte(0, 89), Byte(0, 106), Byte(0, 107), Byte(0, 113),
     Byte(0, 118), Byte(0, 119), Byte(0, 120), Byte(0, 121), Byte(0, 122), On(72), On(73), On(74),
     On(7)], // 3
    [Byte(8, 119), Byte(1, 119), Byte(8, 120), Byte(1, 120), Byte(8, 121), Byte(1, 121),
     Byte(8, 122), Byte(1, 122), Byte(0, 38), Byte(0, 42), Byte(0, 44), Byte(0, 59), Byte(0, 88),
     Byte(0, 90), On(75), On(76)], // 4
    [Byte(8, 38), Byte(1, 38), Byte(8, 42), Byte(1, 42), Byte(8, 44), Byte(1, 44), Byte(8, 59),
     Byte(1, 59), Byte(8, 88), Byte(1, 88), Byte(8, 90), Byte(1, 90), On(77), On(78), On(79),
     On(80)], // 5
    [Byte(9, 88), Byte(10, 88), Byte(11, 88), Byte(2, 88), Byte(9, 90), Byte(10, 90), Byte(11, 90),
     Byte(2, 90), Byte(0, 33), Byte(0, 34), Byte(0, 40), Byte(0, 41), Byte(0, 63), On(81), On(82),
     On(83)], // 6
    [Byte(8, 33), Byte(1, 33), Byte(8, 34), Byte(1, 34), Byte(8, 40), Byte(1, 40), Byte(8, 41),
     Byte(1, 41), Byte(8, 63), Byte(1, 63), Byte(0, 39), Byte(0, 43), Byte(0, 124), On(84), On(85),
     On(86)], // 7
    [Byte(0, 48), Byte(0, 49), Byte(0, 50), Byte(0, 97), Byte(0, 99), Byte(0, 101), Byte(0, 105),
     Byte(0, 111), Byte(0, 115), Byte(0, 116), On(34), On(35), On(36), On(37), On(38), On(39)], // 8
    [Byte(8, 48), Byte(1, 48), Byte(8, 49), Byte(1, 49), Byte(8, 50), Byte(1, 50), Byte(8, 97),
     Byte(1, 97), Byte(8, 99), Byte(1, 99), Byte(8, 101), Byte(1, 101), Byte(8, 105), Byte(1, 105),
     Byte(8, 111), Byte(1, 111)], // 9
    [Byte(8, 115), Byte(1, 115), Byte(8, 116), Byte(1, 116), Byte(0, 32), Byte(0, 37), Byte(0, 45),
     Byte(0, 46), Byte(0, 47), Byte(0, 51), Byte(0, 52), Byte(0, 53), Byte(0, 54), Byte(0, 55),
     Byte(0, 56), Byte(0, 57)], // 10
    [Byte(0, 61), Byte(0, 65), Byte(0, 95), Byte(0, 98), Byte(0, 100), Byte(0, 102), Byte(0, 103),
     Byte(0, 104), Byte(0, 108), Byte(0, 109), Byte(0, 110), Byte(0, 112), Byte(0, 114),
     Byte(0, 117), On(55), On(56)], // 11
    [Byte(9, 48), Byte(10, 48), Byte(11, 48), Byte(2, 48), Byte(9, 49), Byte(10, 49), Byte(11, 49),
     Byte(2, 49), Byte(9, 50), Byte(10, 50), Byte(11, 50), Byte(2, 50), Byte(9, 97), Byte(10, 97),
     Byte(11, 97), Byte(2, 97)], // 12
    [Byte(9, 99), Byte(10, 99), Byte(11, 99), Byte(2, 99), Byte(9, 101), Byte(10, 101),
     Byte(11, 101), Byte(2, 101), Byte(9, 105), Byte(10, 105), Byte(11, 105), Byte(2, 105),
     Byte(9, 111), Byte(10, 111), Byte(11, 111), Byte(2, 111)], // 13
    [Byte(9, 115), Byte(10, 115), Byte(11, 115), Byte(2, 115), Byte(9, 116), Byte(10, 116),
     Byte(11, 116), Byte(2, 116), Byte(8, 32), Byte(1, 32), Byte(8, 37), Byte(1, 37), Byte(8, 45),
     Byte(1, 45), Byte(8, 46), Byte(1, 46)], // 14
    [Byte(8, 47), Byte(1, 47), Byte(8, 51), Byte(1, 51), Byte(8, 52), Byte(1, 52), Byte(8, 53),
     Byte(1, 53), Byte(8, 54), Byte(1, 54), Byte(8, 55), Byte(1, 55), Byte(8, 56), Byte(1, 56),
     Byte(8, 57), Byte(1, 57)], // 15
    [Byte(8, 61), Byte(1, 61), Byte(8, 65), Byte(1, 65), Byte(8, 95), Byte(1, 95), Byte(8, 98),
     Byte(1, 98), Byte(8, 100), Byte(1, 100), Byte(8, 102), Byte(1, 102), Byte(8, 103),
     Byte(1, 103), Byte(8, 104), Byte(1, 104)], // 16
    [Byte(8, 108), Byte(1, 108), Byte(8, 109), Byte(1, 109), Byte(8, 110), Byte(1, 110),
     Byte(8, 112), Byte(1, 112), Byte(8, 114), Byte(1, 114), Byte(8, 117), Byte(1, 117),
     Byte(0, 58), Byte(0, 66), Byte(0, 67), Byte(0, 68)], // 17
    [Byte(0, 69), Byte(0, 70), Byte(0, 71), Byte(0, 72), Byte(0, 73), Byte(0, 74), Byte(0, 75),
     Byte(0, 76), Byte(0, 77), Byte(0, 78), Byte(0, 79), Byte(0, 80), Byte(0, 81), Byte(0, 82),
     Byte(0, 83), Byte(0, 84)], // 18
    [Byte(12, 48), Byte(13, 48), Byte(14, 48), Byte(15, 48), Byte(16, 48), Byte(17, 48),
     Byte(18, 48), Byte(3, 48), Byte(12, 49), Byte(13, 49), Byte(14, 49), Byte(15, 49),
     Byte(16, 49), Byte(17, 49), Byte(18, 49), Byte(3, 49)], // 19
    [Byte(12, 50), Byte(13, 50), Byte(14, 50), Byte(15, 50), Byte(16, 50), Byte(17, 50),
     Byte(18, 50), Byte(3, 50), Byte(12, 97), Byte(13, 97), Byte(14, 97), Byte(15, 97),
     Byte(16, 97), Byte(17, 97), Byte(18, 97), Byte(3, 97)], // 20
    [Byte(12, 99), Byte(13, 99), Byte(14, 99), Byte(15, 99), Byte(16, 99), Byte(17, 99),
     Byte(18, 99), Byte(3, 99), Byte(12, 101), Byte(13, 101), Byte(14, 101), Byte(15, 101),
     Byte(16, 101), Byte(17, 101), Byte(18, 101), Byte(3, 101)], // 21
    [Byte(12, 105), Byte(13, 105), Byte(14, 105), Byte(15, 105), Byte(16, 105), Byte(17, 105),
     Byte(18, 105), Byte(3, 105), Byte(12, 111), Byte(13, 111), Byte(14, 111), Byte(15, 111),
     Byte(16, 111), Byte(17, 111), Byte(18, 111), Byte(3, 111)], // 22
    [Byte(12, 115), Byte(13, 115), Byte(14, 115), Byte(15, 115), Byte(16, 115), Byte(17, 115),
     Byte(18, 115), Byte(3, 115), Byte(12, 116), Byte(13, 116), Byte(14, 116), Byte(15, 116),
     Byte(16, 116), Byte(17, 116), Byte(18, 116), Byte(3, 116)], // 23
    [Byte(9, 32), Byte(10, 32), Byte(11, 32), Byte(2, 32), Byte(9, 37), Byte(10, 37), Byte(11, 37),
     Byte(2, 37), Byte(9, 45), Byte(10, 45), Byte(11, 45), Byte(2, 45), Byte(9, 46), Byte(10, 46),
     Byte(11, 46), Byte(2, 46)], // 24
    [Byte(9, 47), Byte(10, 47), Byte(11, 47), Byte(2, 47), Byte(9, 51), Byte(10, 51), Byte(11, 51),
     Byte(2, 51), Byte(9, 52), Byte(10, 52), Byte(11, 52), Byte(2, 52), Byte(9, 53), Byte(10, 53),
     Byte(11, 53), Byte(2, 53)], // 25
    [Byte(9, 54), Byte(10, 54), Byte(11, 54), Byte(2, 54), Byte(9, 55), Byte(10, 55), Byte(11, 55),
     Byte(2, 55), Byte(9, 56), Byte(10, 56), Byte(11, 56), Byte(2, 56), Byte(9, 57), Byte(10, 57),
     Byte(11, 57), Byte(2, 57)], // 26
    [Byte(9, 61), Byte(10, 61), Byte(11, 61), Byte(2, 61), Byte(9, 65), Byte(10, 65), Byte(11, 65),
     Byte(2, 65), Byte(9, 95), Byte(10, 95), Byte(11, 95), Byte(2, 95), Byte(9, 98), Byte(10, 98),
     Byte(11, 98), Byte(2, 98)], // 27
    [Byte(9, 100), Byte(10, 100), Byte(11, 100), Byte(2, 100), Byte(9, 102), Byte(10, 102),
     Byte(11, 102), Byte(2, 102), Byte(9, 103), Byte(10, 103), Byte(11, 103), Byte(2, 103),
     Byte(9, 104), Byte(10, 104), Byte(11, 104), Byte(2, 104)], // 28
    [Byte(9, 108), Byte(10, 108), Byte(11, 108), Byte(2, 108), Byte(9, 109), Byte(10, 109),
     Byte(11, 109), Byte(2, 109), Byte(9, 110), Byte(10, 110), Byte(11, 110), Byte(2, 110),
     Byte(9, 112), Byte(10, 112), Byte(11, 112), Byte(2, 112)], // 29
    [Byte(9, 114), Byte(10, 114), Byte(11, 114), Byte(2, 114), Byte(9, 117), Byte(10, 117),
     Byte(11, 117), Byte(2, 117), Byte(8, 58), Byte(1, 58), Byte(8, 66), Byte(1, 66), Byte(8, 67),
     Byte(1, 67), Byte(8, 68), Byte(1, 68)], // 30
    [Byte(8, 69), Byte(1, 69), Byte(8, 70), Byte(1, 70), Byte(8, 71), Byte(1, 71), Byte(8, 72),
     Byte(1, 72), Byte(8, 73), Byte(1, 73), Byte(8, 74), Byte(1, 74), Byte(8, 75), Byte(1, 75),
     Byte(8, 76), Byte(1, 76)], // 31
    [Byte(8, 77), Byte(1, 77), Byte(8, 78), Byte(1, 78), Byte(8, 79), Byte(1, 79), Byte(8, 80),
     Byte(1, 80), Byte(8, 81), Byte(1, 81), Byte(8, 82), Byte(1, 82), Byte(8, 83), Byte(1, 83),
     Byte(8, 84), Byte(1, 84)], // 32
    [Byte(8, 85), Byte(1, 85), Byte(8, 86), Byte(1, 86), Byte(8, 87), Byte(1, 87), Byte(8, 89),
     Byte(1, 89), Byte(8, 106), Byte(1, 106), Byte(8, 107), Byte(1, 107), Byte(8, 113),
     Byte(1, 113), Byte(8, 118), Byte(1, 118)], // 33
    [Byte(12, 32), Byte(13, 32), Byte(14, 32), Byte(15, 32), Byte(16, 32), Byte(17, 32),
     Byte(18, 32), Byte(3, 32), Byte(12, 37), Byte(13, 37), Byte(14, 37), Byte(15, 37),
     Byte(16, 37), Byte(17, 37), Byte(18, 37), Byte(3, 37)], // 34
    [Byte(12, 45), Byte(13, 45), Byte(14, 45), Byte(15, 45), Byte(16, 45), Byte(17, 45),
     Byte(18, 45), Byte(3, 45), Byte(12, 46), Byte(13, 46), Byte(14, 46), Byte(15, 46),
     Byte(16, 46), Byte(17, 46), Byte(18, 46), Byte(3, 46)], // 35
    [Byte(12, 47), Byte(13, 47), Byte(14, 47), Byte(15, 47), Byte(16, 47), Byte(17, 47),
     Byte(18, 47), Byte(3, 47), Byte(12, 51), Byte(13, 51), Byte(14, 51), Byte(15, 51),
     Byte(16, 51), Byte(17, 51), Byte(18, 51), Byte(3, 51)], // 36
    [Byte(12, 52), Byte(13, 52), Byte(14, 52), Byte(15, 52), Byte(16, 52), Byte(17, 52),
     Byte(18, 52), Byte(3, 52), Byte(12, 53), Byte(13, 53), Byte(14, 53), Byte(15, 53),
     Byte(16, 53), Byte(17, 53), Byte(18, 53), Byte(3, 53)], // 37
    [Byte(12, 54), Byte(13, 54), Byte(14, 54), Byte(15, 54), Byte(16, 54), Byte(17, 54),
     Byte(18, 54), Byte(3, 54), Byte(12, 55), Byte(13, 55), Byte(14, 55), Byte(15, 55),
     Byte(16, 55), Byte(17, 55), Byte(18, 55), Byte(3, 55)], // 38
    [Byte(12, 56), Byte(13, 56), Byte(14, 56), Byte(15, 56), Byte(16, 56), Byte(17, 56),
     Byte(18, 56), Byte(3, 56), Byte(12, 57), Byte(13, 57), Byte(14, 57), Byte(15, 57),
     Byte(16, 57), Byte(17, 57), Byte(18, 57), Byte(3, 57)], // 39
    [Byte(12, 61), Byte(13, 61), Byte(14, 61), Byte(15, 61), Byte(16, 61), Byte(17, 61),
     Byte(18, 61), Byte(3, 61), Byte(12, 65), Byte(13, 65), Byte(14, 65), Byte(15, 65),
     Byte(16, 65), Byte(17, 65), Byte(18, 65), Byte(3, 65)], // 40
    [Byte(12, 95), Byte(13, 95), Byte(14, 95), Byte(15, 95), Byte(16, 95), Byte(17, 95),
     Byte(18, 95), Byte(3, 95), Byte(12, 98), Byte(13, 98), Byte(14, 98), Byte(15, 98),
     Byte(16, 98), Byte(17, 98), Byte(18, 98), Byte(3, 98)], // 41
    [Byte(12, 100), Byte(13, 100), Byte(14, 100), Byte(15, 100), Byte(16, 100), Byte(17, 100),
     Byte(18, 100), Byte(3, 100), Byte(12, 102), Byte(13, 102), Byte(14, 102), Byte(15, 102),
     Byte(16, 102), Byte(17, 102), Byte(18, 102), Byte(3, 102)], // 42
    [Byte(12, 103), Byte(13, 103), Byte(14, 103), Byte(15, 103), Byte(16, 103), Byte(17, 103),
     Byte(18, 103), Byte(3, 103), Byte(12, 104), Byte(13, 104), Byte(14, 104), Byte(15, 104),
     Byte(16, 104), Byte(17, 104), Byte(18, 104), Byte(3, 104)], // 43
    [Byte(12, 108), Byte(13, 108), Byte(14, 108), Byte(15, 108), Byte(16, 108), Byte(17, 108),
     Byte(18, 108), Byte(3, 108), Byte(12, 109), Byte(13, 109), Byte(14, 109), Byte(15, 109),
     Byte(16, 109), Byte(17, 109), Byte(18, 109), Byte(3, 109)], // 44
    [Byte(12, 110), Byte(13, 110), Byte(14, 110), Byte(15, 110), Byte(16, 110), Byte(17, 110),
     Byte(18, 110), Byte(3, 110), Byte(12, 112), Byte(13, 112), Byte(14, 112), Byte(15, 112),
     Byte(16, 112), Byte(17, 112), Byte(18, 112), Byte(3, 112)], // 45
    [Byte(12, 114), Byte(13, 114), Byte(14, 114), Byte(15, 114), Byte(16, 114), Byte(17, 114),
     Byte(18, 114), Byte(3, 114), Byte(12, 117), Byte(13, 117), Byte(14, 117), Byte(15, 117),
     Byte(16, 117), Byte(17, 117), Byte(18, 117), Byte(3, 117)], // 46
    [Byte(9, 58), Byte(10, 58), Byte(11, 58), Byte(2, 58), Byte(9, 66), Byte(10, 66), Byte(11, 66),
     Byte(2, 66), Byte(9, 67), Byte(10, 67), Byte(11, 67), Byte(2, 67), Byte(9, 68), Byte(10, 68),
     Byte(11, 68), Byte(2, 68)], // 47
    [Byte(9, 69), Byte(10, 69), Byte(11, 69), Byte(2, 69), Byte(9, 70), Byte(10, 70), Byte(11, 70),
     Byte(2, 70), Byte(9, 71), Byte(10, 71), Byte(11, 71), Byte(2, 71), Byte(9, 72), Byte(10, 72),
     Byte(11, 72), Byte(2, 72)], // 48
    [Byte(9, 73), Byte(10, 73), Byte(11, 73), Byte(2, 73), Byte(9, 74), Byte(10, 74), Byte(11, 74),
     Byte(2, 74), Byte(9, 75), Byte(10, 75), Byte(11, 75), Byte(2, 75), Byte(9, 76), Byte(10, 76),
     Byte(11, 76), Byte(2, 76)], // 49
    [Byte(9, 77), Byte(10, 77), Byte(11, 77), Byte(2, 77), Byte(9, 78), Byte(10, 78), Byte(11, 78),
     Byte(2, 78), Byte(9, 79), Byte(10, 79), Byte(11, 79), Byte(2, 79), Byte(9, 80), Byte(10, 80),
     Byte(11, 80), Byte(2, 80)], // 50
    [Byte(9, 81), Byte(10, 81), Byte(11, 81), Byte(2, 81), Byte(9, 82), Byte(10, 82), Byte(11, 82),
     Byte(2, 82), Byte(9, 83), Byte(10, 83), Byte(11, 83), Byte(2, 83), Byte(9, 84), Byte(10, 84),
     Byte(11, 84), Byte(2, 84)], // 51
    [Byte(9, 85), Byte(10, 85), Byte(11, 85), Byte(2, 85), Byte(9, 86), Byte(10, 86), Byte(11, 86),
     Byte(2, 86), Byte(9, 87), Byte(10, 87), Byte(11, 87), Byte(2, 87), Byte(9, 89), Byte(10, 89),
     Byte(11, 89), Byte(2, 89)], // 52
    [Byte(9, 106), Byte(10, 106), Byte(11, 106), Byte(2, 106), Byte(9, 107), Byte(10, 107),
     Byte(11, 107), Byte(2, 107), Byte(9, 113), Byte(10, 113), Byte(11, 113), Byte(2, 113),
     Byte(9, 118), Byte(10, 118), Byte(11, 118), Byte(2, 118)], // 53
    [Byte(9, 119), Byte(10, 119), Byte(11, 119), Byte(2, 119), Byte(9, 120), Byte(10, 120),
     Byte(11, 120), Byte(2, 120), Byte(9, 121), Byte(10, 121), Byte(11, 121), Byte(2, 121),
     Byte(9, 122), Byte(10, 122), Byte(11, 122), Byte(2, 122)], // 54
    [Byte(12, 58), Byte(13, 58), Byte(14, 58), Byte(15, 58), Byte(16, 58), Byte(17, 58),
     Byte(18, 58), Byte(3, 58), Byte(12, 66), Byte(13, 66), Byte(14, 66), Byte(15, 66),
     Byte(16, 66), Byte(17, 66), Byte(18, 66), Byte(3, 66)], // 55
    [Byte(12, 67), Byte(13, 67), Byte(14, 67), Byte(15, 67), Byte(16, 67), Byte(17, 67),
     Byte(18, 67), Byte(3, 67), Byte(12, 68), Byte(13, 68), Byte(14, 68), Byte(15, 68),
     Byte(16, 68), Byte(17, 68), Byte(18, 68), Byte(3, 68)], // 56
    [Byte(12, 69), Byte(13, 69), Byte(14, 69), Byte(15, 69), Byte(16, 69), Byte(17, 69),
     Byte(18, 69), Byte(3, 69), Byte(12, 70), Byte(13, 70), Byte(14, 70), Byte(15, 70),
     Byte(16, 70), Byte(17, 70), Byte(18, 70), Byte(3, 70)], // 57
    [Byte(12, 71), Byte(13, 71), Byte(14, 71), Byte(15, 71), Byte(16, 71), Byte(17, 71),
     Byte(18, 71), Byte(3, 71), Byte(12, 72), Byte(13, 72), Byte(14, 72), Byte(15, 72),
     Byte(16, 72), Byte(17, 72), Byte(18, 72), Byte(3, 72)], // 58
    [Byte(12, 73), Byte(13, 73), Byte(14, 73), Byte(15, 73), Byte(16, 73), Byte(17, 73),
     Byte(18, 73), Byte(3, 73), Byte(12, 74), Byte(13, 74), Byte(14, 74), Byte(15, 74),
     Byte(16, 74), Byte(17, 74), Byte(18, 74), Byte(3, 74)], // 59
    [Byte(12, 75), Byte(13, 75), Byte(14, 75), Byte(15, 75), Byte(16, 75), Byte(17, 75),
     Byte(18, 75), Byte(3, 75), Byte(12, 76), Byte(13, 76), Byte(14, 76), Byte(15, 76),
     Byte(16, 76), Byte(17, 76), Byte(18, 76), Byte(3, 76)], // 60
    [Byte(12, 77), Byte(13, 77), Byte(14, 77), Byte(15, 77), Byte(16, 77), Byte(17, 77),
     Byte(18, 77), Byte(3, 77), Byte(12, 78), Byte(13, 78), Byte(14, 78), Byte(15, 78),
     Byte(16, 78), Byte(17, 78), Byte(18, 78), Byte(3, 78)], // 61
    [Byte(12, 79), Byte(13, 79), Byte(14, 79), Byte(15, 79), Byte(16, 79), Byte(17, 79),
     Byte(18, 79), Byte(3, 79), Byte(12, 80), Byte(13, 80), Byte(14, 80), Byte(15, 80),
     Byte(16, 80), Byte(17, 80), Byte(18, 80), Byte(3, 80)], // 62
    [Byte(12, 81), Byte(13, 81), Byte(14, 81), Byte(15, 81), Byte(16, 81), Byte(17, 81),
     Byte(18, 81), Byte(3, 81), Byte(12, 82), Byte(13, 82), Byte(14, 82), Byte(15, 82),
     Byte(16, 82), Byte(17, 82), Byte(18, 82), Byte(3, 82)], // 63
    [Byte(12, 83), Byte(13, 83), Byte(14, 83), Byte(15, 83), Byte(16, 83), Byte(17, 83),
     Byte(18, 83), Byte(3, 83), Byte(12, 84), Byte(13, 84), Byte(14, 84), Byte(15, 84),
     Byte(16, 84), Byte(17, 84), Byte(18, 84), Byte(3, 84)], // 64
    [Byte(12, 85), Byte(13, 85), Byte(14, 85), Byte(15, 85), Byte(16, 85), Byte(17, 85),
     Byte(18, 85), Byte(3, 85), Byte(12, 86), Byte(13, 86), Byte(14, 86), Byte(15, 86),
     Byte(16, 86), Byte(17, 86), Byte(18, 86), Byte(3, 86)], // 65
    [Byte(12, 87), Byte(13, 87), Byte(14, 87), Byte(15, 87), Byte(16, 87), Byte(17, 87),
     Byte(18, 87), Byte(3, 87), Byte(12, 89), Byte(13, 89), Byte(14, 89), Byte(15, 89),
     Byte(16, 89), Byte(17, 89), Byte(18, 89), Byte(3, 89)], // 66
    [Byte(12, 106), Byte(13, 106), Byte(14, 106), Byte(15, 106), Byte(16, 106), Byte(17, 106),
     Byte(18, 106), Byte(3, 106), Byte(12, 107), Byte(13, 107), Byte(14, 107), Byte(15, 107),
     Byte(16, 107), Byte(17, 107), Byte(18, 107), Byte(3, 107)], // 67
    [Byte(12, 113), Byte(13, 113), Byte(14, 113), Byte(15, 113), Byte(16, 113), Byte(17, 113),
     Byte(18, 113), Byte(3, 113), Byte(12, 118), Byte(13, 118), Byte(14, 118), Byte(15, 118),
     Byte(16, 118), Byte(17, 118), Byte(18, 118), Byte(3, 118)], // 68
    [Byte(12, 119), Byte(13, 119), Byte(14, 119), Byte(15, 119), Byte(16, 119), Byte(17, 119),
     Byte(18, 119), Byte(3, 119), Byte(12, 120), Byte(13, 120), Byte(14, 120), Byte(15, 120),
     Byte(16, 120), Byte(17, 120), Byte(18, 120), Byte(3, 120)], // 69
    [Byte(12, 121), Byte(13, 121), Byte(14, 121), Byte(15, 121), Byte(16, 121), Byte(17, 121),
     Byte(18, 121), Byte(3, 121), Byte(12, 122), Byte(13, 122), Byte(14, 122), Byte(15, 122),
     Byte(16, 122), Byte(17, 122), Byte(18, 122), Byte(3, 122)], // 70
    [Byte(9, 38), Byte(10, 38), Byte(11, 38), Byte(2, 38), Byte(9, 42), Byte(10, 42), Byte(11, 42),
     Byte(2, 42), Byte(9, 44), Byte(10, 44), Byte(11, 44), Byte(2, 44), Byte(9, 59), Byte(10, 59),
     Byte(11, 59), Byte(2, 59)], // 71
    [Byte(12, 38), Byte(13, 38), Byte(14, 38), Byte(15, 38), Byte(16, 38), Byte(17, 38),
     Byte(18, 38), Byte(3, 38), Byte(12, 42), Byte(13, 42), Byte(14, 42), Byte(15, 42),
     Byte(16, 42), Byte(17, 42), Byte(18, 42), Byte(3, 42)], // 72
    [Byte(12, 44), Byte(13, 44), Byte(14, 44), Byte(15, 44), Byte(16, 44), Byte(17, 44),
     Byte(18, 44), Byte(3, 44), Byte(12, 59), Byte(13, 59), Byte(14, 59), Byte(15, 59),
     Byte(16, 59), Byte(17, 59), Byte(18, 59), Byte(3, 59)], // 73
    [Byte(12, 88), Byte(13, 88), Byte(14, 88), Byte(15, 88), Byte(16, 88), Byte(17, 88),
     Byte(18, 88), Byte(3, 88), Byte(12, 90), Byte(13, 90), Byte(14, 90), Byte(15, 90),
     Byte(16, 90), Byte(17, 90), Byte(18, 90), Byte(3, 90)], // 74
    [Byte(9, 33), Byte(10, 33), Byte(11, 33), Byte(2, 33), Byte(9, 34), Byte(10, 34), Byte(11, 34),
     Byte(2, 34), Byte(9, 40), Byte(10, 40), Byte(11, 40), Byte(2, 40), Byte(9, 41), Byte(10, 41),
     Byte(11, 41), Byte(2, 41)], // 75
    [Byte(9, 63), Byte(10, 63), Byte(11, 63), Byte(2, 63), Byte(8, 39), Byte(1, 39), Byte(8, 43),
     Byte(1, 43), Byte(8, 124), Byte(1, 124), Byte(0, 35), Byte(0, 62), On(87), On(88), On(89),
     On(90)], // 76
    [Byte(12, 33), Byte(13, 33), Byte(14, 33), Byte(15, 33), Byte(16, 33), Byte(17, 33),
     Byte(18, 33), Byte(3, 33), Byte(12, 34), Byte(13, 34), Byte(14, 34), Byte(15, 34),
     Byte(16, 34), Byte(17, 34), Byte(18, 34), Byte(3, 34)], // 77
    [Byte(12, 40), Byte(13, 40), Byte(14, 40), Byte(15, 40), Byte(16, 40), Byte(17, 40),
     Byte(18, 40), Byte(3, 40), Byte(12, 41), Byte(13, 41), Byte(14, 41), Byte(15, 41),
     Byte(16, 41), Byte(17, 41), Byte(18, 41), Byte(3, 41)], // 78
    [Byte(12, 63), Byte(13, 63), Byte(14, 63), Byte(15, 63), Byte(16, 63), Byte(17, 63),
     Byte(18, 63), Byte(3, 63), Byte(9, 39), Byte(10, 39), Byte(11, 39), Byte(2, 39), Byte(9, 43),
     Byte(10, 43), Byte(11, 43), Byte(2, 43)], // 79
    [Byte(9, 124), Byte(10, 124), Byte(11, 124), Byte(2, 124), Byte(8, 35), Byte(1, 35),
     Byte(8, 62), Byte(1, 62), Byte(0, 0), Byte(0, 36), Byte(0, 64), Byte(0, 91), Byte(0, 93),
     Byte(0, 126), On(91), On(92)], // 80
    [Byte(12, 39), Byte(13, 39), Byte(14, 39), Byte(15, 39), Byte(16, 39), Byte(17, 39),
     Byte(18, 39), Byte(3, 39), Byte(12, 43), Byte(13, 43), Byte(14, 43), Byte(15, 43),
     Byte(16, 43), Byte(17, 43), Byte(18, 43), Byte(3, 43)], // 81
    [Byte(12, 124), Byte(13, 124), Byte(14, 124), Byte(15, 124), Byte(16, 124), Byte(17, 124),
     Byte(18, 124), Byte(3, 124), Byte(9, 35), Byte(10, 35), Byte(11, 35), Byte(2, 35), Byte(9, 62),
     Byte(10, 62), Byte(11, 62), Byte(2, 62)], // 82
    [Byte(8, 0), Byte(1, 0), Byte(8, 36), Byte(1, 36), Byte(8, 64), Byte(1, 64), Byte(8, 91),
     Byte(1, 91), Byte(8, 93), Byte(1, 93), Byte(8, 126), Byte(1, 126), Byte(0, 94), Byte(0, 125),
     On(93), On(94)], // 83
    [Byte(12, 35), Byte(13, 35), Byte(14, 35), Byte(15, 35), Byte(16, 35), Byte(17, 35),
     Byte(18, 35), Byte(3, 35), Byte(12, 62), Byte(13, 62), Byte(14, 62), Byte(15, 62),
     Byte(16, 62), Byte(17, 62), Byte(18, 62), Byte(3, 62)], // 84
    [Byte(9, 0), Byte(10, 0), Byte(11, 0), Byte(2, 0), Byte(9, 36), Byte(10, 36), Byte(11, 36),
     Byte(2, 36), Byte(9, 64), Byte(10, 64), Byte(11, 64), Byte(2, 64), Byte(9, 91), Byte(10, 91),
     Byte(11, 91), Byte(2, 91)], // 85
    [Byte(9, 93), Byte(10, 93), Byte(11, 93), Byte(2, 93), Byte(9, 126), Byte(10, 126),
     Byte(11, 126), Byte(2, 126), Byte(8, 94), Byte(1, 94), Byte(8, 125), Byte(1, 125), Byte(0, 60),
     Byte(0, 96), Byte(0, 123), On(95)], // 86
    [Byte(12, 0), Byte(13, 0), Byte(14, 0), Byte(15, 0), Byte(16, 0), Byte(17, 0), Byte(18, 0),
     Byte(3, 0), Byte(12, 36), Byte(13, 36), Byte(14, 36), Byte(15, 36), Byte(16, 36), Byte(17, 36),
     Byte(18, 36), Byte(3, 36)], // 87
    [Byte(12, 64), Byte(13, 64), Byte(14, 64), Byte(15, 64), Byte(16, 64), Byte(17, 64),
     Byte(18, 64), Byte(3, 64), Byte(12, 91), Byte(13, 91), Byte(14, 91), Byte(15, 91),
     Byte(16, 91), Byte(17, 91), Byte(18, 91), Byte(3, 91)], // 88
    [Byte(12, 93), Byte(13, 93), Byte(14, 93), Byte(15, 93), Byte(16, 93), Byte(17, 93),
     Byte(18, 93), Byte(3, 93), Byte(12, 126), Byte(13, 126), Byte(14, 126), Byte(15, 126),
     Byte(16, 126), Byte(17, 126), Byte(18, 126), Byte(3, 126)], // 89
    [Byte(9, 94), Byte(10, 94), Byte(11, 94), Byte(2, 94), Byte(9, 125), Byte(10, 125),
     Byte(11, 125), Byte(2, 125), Byte(8, 60), Byte(1, 60), Byte(8, 96), Byte(1, 96), Byte(8, 123),
     Byte(1, 123), On(96), On(97)], // 90
    [Byte(12, 94), Byte(13, 94), Byte(14, 94), Byte(15, 94), Byte(16, 94), Byte(17, 94),
     Byte(18, 94), Byte(3, 94), Byte(12, 125), Byte(13, 125), Byte(14, 125), Byte(15, 125),
     Byte(16, 125), Byte(17, 125), Byte(18, 125), Byte(3, 125)], // 91
    [Byte(9, 60), Byte(10, 60), Byte(11, 60), Byte(2, 60), Byte(9, 96), Byte(10, 96), Byte(11, 96),
     Byte(2, 96), Byte(9, 123), Byte(10, 123), Byte(11, 123), Byte(2, 123), On(98), On(99), On(100),
     On(101)], // 92
    [Byte(12, 60), Byte(13, 60), Byte(14, 60), Byte(15, 60), Byte(16, 60), Byte(17, 60),
     Byte(18, 60), Byte(3, 60), Byte(12, 96), Byte(13, 96), Byte(14, 96), Byte(15, 96),
     Byte(16, 96), Byte(17, 96), Byte(18, 96), Byte(3, 96)], // 93
    [Byte(12, 123), Byte(13, 123), Byte(14, 123), Byte(15, 123), Byte(16, 123), Byte(17, 123),
     Byte(18, 123), Byte(3, 123), On(102), On(103), On(104), On(105), On(106), On(107), On(108),
     On(109)], // 94
    [Byte(0, 92), Byte(0, 195), Byte(0, 208), On(110), On(111), On(112), On(113), On(114), On(115),
     On(116), On(117), On(118), On(119), On(120), On(121), On(122)], // 95
    [Byte(8, 92), Byte(1, 92), Byte(8, 195), Byte(1, 195), Byte(8, 208), Byte(1, 208), Byte(0, 128),
     Byte(0, 130), Byte(0, 131), Byte(0, 162), Byte(0, 184), Byte(0, 194), Byte(0, 224),
     Byte(0, 226), On(123), On(124)], // 96
    [On(125), On(126), On(127), On(128), On(129), On(130), On(131), On(132), On(133), On(134),
     On(135), On(136), On(137), On(138), On(139), On(140)], // 97
    [Byte(9, 92), Byte(10, 92), Byte(11, 92), Byte(2, 92), Byte(9, 195), Byte(10, 195),
     Byte(11, 195), Byte(2, 195), Byte(9, 208), Byte(10, 208), Byte(11, 208), Byte(2, 208),
     Byte(8, 128), Byte(1, 128), Byte(8, 130), Byte(1, 130)], // 98
    [Byte(8, 131), Byte(1, 131), Byte(8, 162), Byte(1, 162), Byte(8, 184), Byte(1, 184),
     Byte(8, 194), Byte(1, 194), Byte(8, 224), Byte(1, 224), Byte(8, 226), Byte(1, 226),
     Byte(0, 153), Byte(0, 161), Byte(0, 167), Byte(0, 172)], // 99
    [Byte(0, 176), Byte(0, 177), Byte(0, 179), Byte(0, 209), Byte(0, 216), Byte(0, 217),
     Byte(0, 227), Byte(0, 229), Byte(0, 230), On(141), On(142), On(143), On(144), On(145), On(146),
     On(147)], // 100
    [On(148), On(149), On(150), On(151), On(152), On(153), On(154), On(155), On(156), On(157),
     On(158), On(159), On(160), On(161), On(162), On(163)], // 101
    [Byte(12, 92), Byte(13, 92), Byte(14, 92), Byte(15, 92), Byte(16, 92), Byte(17, 92),
     Byte(18, 92), Byte(3, 92), Byte(12, 195), Byte(13, 195), Byte(14, 195), Byte(15, 195),
     Byte(16, 195), Byte(17, 195), Byte(18, 195), Byte(3, 195)], // 102
    [Byte(12, 208), Byte(13, 208), Byte(14, 208), Byte(15, 208), Byte(16, 208), Byte(17, 208),
     Byte(18, 208), Byte(3, 208), Byte(9, 128), Byte(10, 128), Byte(11, 128), Byte(2, 128),
     Byte(9, 130), Byte(10, 130), Byte(11, 130), Byte(2, 130)], // 103
    [Byte(9, 131), Byte(10, 131), Byte(11, 131), Byte(2, 131), Byte(9, 162), Byte(10, 162),
     Byte(11, 162), Byte(2, 162), Byte(9, 184), Byte(10, 184), Byte(11, 184), Byte(2, 184),
     Byte(9, 194), Byte(10, 194), Byte(11, 194), Byte(2, 194)], // 104
    [Byte(9, 224), Byte(10, 224), Byte(11, 224), Byte(2, 224), Byte(9, 226), Byte(10, 226),
     Byte(11, 226), Byte(2, 226), Byte(8, 153), Byte(1, 153), Byte(8, 161), Byte(1, 161),
     Byte(8, 167), Byte(1, 167), Byte(8, 172), Byte(1, 172)], // 105
    [Byte(8, 176), Byte(1, 176), Byte(8, 177), Byte(1, 177), Byte(8, 179), Byte(1, 179),
     Byte(8, 209), Byte(1, 209), Byte(8, 216), Byte(1, 216), Byte(8, 217), Byte(1, 217),
     Byte(8, 227), Byte(1, 227), Byte(8, 229), Byte(1, 229)], // 106
    [Byte(8, 230), Byte(1, 230), Byte(0, 129), Byte(0, 132), Byte(0, 133), Byte(0, 134),
     Byte(0, 136), Byte(0, 146), Byte(0, 154), Byte(0, 156), Byte(0, 160), Byte(0, 163),
     Byte(0, 164), Byte(0, 169), Byte(0, 170), Byte(0, 173)], // 107
    [Byte(0, 178), Byte(0, 181), Byte(0, 185), Byte(0, 186), Byte(0, 187), Byte(0, 189),
     Byte(0, 190), Byte(0, 196), Byte(0, 198), Byte(0, 228), Byte(0, 232), Byte(0, 233), On(164),
     On(165), On(166), On(167)], // 108
    [On(168), On(169), On(170), On(171), On(172), On(173), On(174), On(175), On(176), On(177),
     On(178), On(179), On(180), On(181), On(182), On(183)], // 109
    [Byte(12, 128), Byte(13, 128), Byte(14, 128), Byte(15, 128), Byte(16, 128), Byte(17, 128),
     Byte(18, 128), Byte(3, 128), Byte(12, 130), Byte(13, 130), Byte(14, 130), Byte(15, 130),
     Byte(16, 130), Byte(17, 130), Byte(18, 130), Byte(3, 130)], // 110
    [Byte(12, 131), Byte(13, 131), Byte(14, 131), Byte(15, 131), Byte(16, 131), Byte(17, 131),
     Byte(18, 131), Byte(3, 131), Byte(12, 162), Byte(13, 162), Byte(14, 162), Byte(15, 162),
     Byte(16, 162), Byte(17, 162), Byte(18, 162), Byte(3, 162)], // 111
    [Byte(12, 184), Byte(13, 184), Byte(14, 184), Byte(15, 184), Byte(16, 184), Byte(17, 184),
     Byte(18, 184), Byte(3, 184), Byte(12, 194), Byte(13, 194), Byte(14, 194), Byte(15, 194),
     Byte(16, 194), Byte(17, 194), Byte(18, 194), Byte(3, 194)], // 112
    [Byte(12, 224), Byte(13, 224), Byte(14, 224), Byte(15, 224), Byte(16, 224), Byte(17, 224),
     Byte(18, 224), Byte(3, 224), Byte(12, 226), Byte(13, 226), Byte(14, 226), Byte(15, 226),
     Byte(16, 226), Byte(17, 226), Byte(18, 226), Byte(3, 226)], // 113
    [Byte(9, 153), Byte(10, 153), Byte(11, 153), Byte(2, 153), Byte(9, 161), Byte(10, 161),
     Byte(11, 161), Byte(2, 161), Byte(9, 167), Byte(10, 167), Byte(11, 167), Byte(2, 167),
     Byte(9, 172), Byte(10, 172), Byte(11, 172), Byte(2, 172)], // 114
    [Byte(9, 176), Byte(10, 176), Byte(11, 176), Byte(2, 176), Byte(9, 177), Byte(10, 177),
     Byte(11, 177), Byte(2, 177), Byte(9, 179), Byte(10, 179), Byte(11, 179), Byte(2, 179),
     Byte(9, 209), Byte(10, 209), Byte(11, 209), Byte(2, 209)], // 115
    [Byte(9, 216), Byte(10, 216), Byte(11, 216), Byte(2, 216), Byte(9, 217), Byte(10, 217),
     Byte(11, 217), Byte(2, 217), Byte(9, 227), Byte(10, 227), Byte(11, 227), Byte(2, 227),
     Byte(9, 229), Byte(10, 229), Byte(11, 229), Byte(2, 229)], // 116
    [Byte(9, 230), Byte(10, 230), Byte(11, 230), Byte(2, 230), Byte(8, 129), Byte(1, 129),
     Byte(8, 132), Byte(1, 132), Byte(8, 133), Byte(1, 133), Byte(8, 134), Byte(1, 134),
     Byte(8, 136), Byte(1, 136), Byte(8, 146), Byte(1, 146)], // 117
    [Byte(8, 154), Byte(1, 154), Byte(8, 156), Byte(1, 156), Byte(8, 160), Byte(1, 160),
     Byte(8, 163), Byte(1, 163), Byte(8, 164), Byte(1, 164), Byte(8, 169), Byte(1, 169),
     Byte(8, 170), Byte(1, 170), Byte(8, 173), Byte(1, 173)], // 118
    [Byte(8, 178), Byte(1, 178), Byte(8, 181), Byte(1, 181), Byte(8, 185), Byte(1, 185),
     Byte(8, 186), Byte(1, 186), Byte(8, 187), Byte(1, 187), Byte(8, 189), Byte(1, 189),
     Byte(8, 190), Byte(1, 190), Byte(8, 196), Byte(1, 196)], // 119
    [Byte(8, 198), Byte(1, 198), Byte(8, 228), Byte(1, 228), Byte(8, 232), Byte(1, 232),
     Byte(8, 233), Byte(1, 233), Byte(0, 1), Byte(0, 135), Byte(0, 137), Byte(0, 138), Byte(0, 139),
     Byte(0, 140), Byte(0, 141), Byte(0, 143)], // 120
    [Byte(0, 147), Byte(0, 149), Byte(0, 150), Byte(0, 151), Byte(0, 152), Byte(0, 155),
     Byte(0, 157), Byte(0, 158), Byte(0, 165), Byte(0, 166), Byte(0, 168), Byte(0, 174),
     Byte(0, 175), Byte(0, 180), Byte(0, 182), Byte(0, 183)], // 121
    [Byte(0, 188), Byte(0, 191), Byte(0, 197), Byte(0, 231), Byte(0, 239), On(184), On(185),
     On(186), On(187), On(188), On(189), On(190), On(191), On(192), On(193), On(194)], // 122
    [Byte(12, 153), Byte(13, 153), Byte(14, 153), Byte(15, 153), Byte(16, 153), Byte(17, 153),
     Byte(18, 153), Byte(3, 153), Byte(12, 161), Byte(13, 161), Byte(14, 161), Byte(15, 161),
     Byte(16, 161), Byte(17, 161), Byte(18, 161), Byte(3, 161)], // 123
    [Byte(12, 167), Byte(13, 167), Byte(14, 167), Byte(15, 167), Byte(16, 167), Byte(17, 167),
     Byte(18, 167), Byte(3, 167), Byte(12, 172), Byte(13, 172), Byte(14, 172), Byte(15, 172),
     Byte(16, 172), Byte(17, 172), Byte(18, 172), Byte(3, 172)], // 124
    [Byte(12, 176), Byte(13, 176), Byte(14, 176), Byte(15, 176), Byte(16, 176), Byte(17, 176),
     Byte(18, 176), Byte(3, 176), Byte(12, 177), Byte(13, 177), Byte(14, 177), Byte(15, 177),
     Byte(16, 177), Byte(17, 177), Byte(18, 177), Byte(3, 177)], // 125
    [Byte(12, 179), Byte(13, 179), Byte(14, 179), Byte(15, 179), Byte(16, 179), Byte(17, 179),
     Byte(18, 179), Byte(3, 179), Byte(12, 209), Byte(13, 209), Byte(14, 209), Byte(15, 209),
     Byte(16, 209), Byte(17, 209), Byte(18, 209), Byte(3, 209)], // 126
    [Byte(12, 216), Byte(13, 216), Byte(14, 216), Byte(15, 216), Byte(16, 216), Byte(17, 216),
     Byte(18, 216), Byte(3, 216), Byte(12, 217), Byte(13, 217), Byte(14, 217), Byte(15, 217),
     Byte(16, 217), Byte(17, 217), Byte(18, 217), Byte(3, 217)], // 127
    [Byte(12, 227), Byte(13, 227), Byte(14, 227), Byte(15, 227), Byte(16, 227), Byte(17, 227),
     Byte(18, 227), Byte(3, 227), Byte(12, 229), Byte(13, 229), Byte(14, 229), Byte(15, 229),
     Byte(16, 229), Byte(17, 229), Byte(18, 229), Byte(3, 229)], // 128
    [Byte(12, 230), Byte(13, 230), Byte(14, 230), Byte(15, 230), Byte(16, 230), Byte(17, 230),
     Byte(18, 230), Byte(3, 230), Byte(9, 129), Byte(10, 129), Byte(11, 129), Byte(2, 129),
     Byte(9, 132), Byte(10, 132), Byte(11, 132), Byte(2, 132)], // 129
    [Byte(9, 133), Byte(10, 133), Byte(11, 133), Byte(2, 133), Byte(9, 134), Byte(10, 134),
     Byte(11, 134), Byte(2, 134), Byte(9, 136), Byte(10, 136), Byte(11, 136), Byte(2, 136),
     Byte(9, 146), Byte(10, 146), Byte(11, 146), Byte(2, 146)], // 130
    [Byte(9, 154), Byte(10, 154), Byte(11, 154), Byte(2, 154), Byte(9, 156), Byte(10, 156),
     Byte(11, 156), Byte(2, 156), Byte(9, 160), Byte(10, 160), Byte(11, 160), Byte(2, 160),
     Byte(9, 163), Byte(10, 163), Byte(11, 163), Byte(2, 163)], // 131
    [Byte(9, 164), Byte(10, 164), Byte(11, 164), Byte(2, 164), Byte(9, 169), Byte(10, 169),
     Byte(11, 169), Byte(2, 169), Byte(9, 170), Byte(10, 170), Byte(11, 170), Byte(2, 170),
     Byte(9, 173), Byte(10, 173), Byte(11, 173), Byte(2, 173)], // 132
    [Byte(9, 178), Byte(10, 178), Byte(11, 178), Byte(2, 178), Byte(9, 181), Byte(10, 181),
     Byte(11, 181), Byte(2, 181), Byte(9, 185), Byte(10, 185), Byte(11, 185), Byte(2, 185),
     Byte(9, 186), Byte(10, 186), Byte(11, 186), Byte(2, 186)], // 133
    [Byte(9, 187), Byte(10, 187), Byte(11, 187), Byte(2, 187), Byte(9, 189), Byte(10, 189),
     Byte(11, 189), Byte(2, 189), Byte(9, 190), Byte(10, 190), Byte(11, 190), Byte(2, 190),
     Byte(9, 196), Byte(10, 196), Byte(11, 196), Byte(2, 196)], // 134
    [Byte(9, 198), Byte(10, 198), Byte(11, 198), Byte(2, 198), Byte(9, 228), Byte(10, 228),
     Byte(11, 228), Byte(2, 228), Byte(9, 232), Byte(10, 232), Byte(11, 232), Byte(2, 232),
     Byte(9, 233), Byte(10, 233), Byte(11, 233), Byte(2, 233)], // 135
    [Byte(8, 1), Byte(1, 1), Byte(8, 135), Byte(1, 135), Byte(8, 137), Byte(1, 137), Byte(8, 138),
     Byte(1, 138), Byte(8, 139), Byte(1, 139), Byte(8, 140), Byte(1, 140), Byte(8, 141),
     Byte(1, 141), Byte(8, 143), Byte(1, 143)], // 136
    [Byte(8, 147), Byte(1, 147), Byte(8, 149), Byte(1, 149), Byte(8, 150), Byte(1, 150),
     Byte(8, 151), Byte(1, 151), Byte(8, 152), Byte(1, 152), Byte(8, 155), Byte(1, 155),
     Byte(8, 157), Byte(1, 157), Byte(8, 158), Byte(1, 158)], // 137
    [Byte(8, 165), Byte(1, 165), Byte(8, 166), Byte(1, 166), Byte(8, 168), Byte(1, 168),
     Byte(8, 174), Byte(1, 174), Byte(8, 175), Byte(1, 175), Byte(8, 180), Byte(1, 180),
     Byte(8, 182), Byte(1, 182), Byte(8, 183), Byte(1, 183)], // 138
    [Byte(8, 188), Byte(1, 188), Byte(8, 191), Byte(1, 191), Byte(8, 197), Byte(1, 197),
     Byte(8, 231), Byte(1, 231), Byte(8, 239), Byte(1, 239), Byte(0, 9), Byte(0, 142), Byte(0, 144),
     Byte(0, 145), Byte(0, 148), Byte(0, 159)], // 139
    [Byte(0, 171), Byte(0, 206), Byte(0, 215), Byte(0, 225), Byte(0, 236), Byte(0, 237), On(195),
     On(196), On(197), On(198), On(199), On(200), On(201), On(202), On(203), On(204)], // 140
    [Byte(12, 129), Byte(13, 129), Byte(14, 129), Byte(15, 129), Byte(16, 129), Byte(17, 129),
     Byte(18, 129), Byte(3, 129), Byte(12, 132), Byte(13, 132), Byte(14, 132), Byte(15, 132),
     Byte(16, 132), Byte(17, 132), Byte(18, 132), Byte(3, 132)], // 141
    [Byte(12, 133), Byte(13, 133), Byte(14, 133), Byte(15, 133), Byte(16, 133), Byte(17, 133),
     Byte(18, 133), Byte(3, 133), Byte(12, 134), Byte(13, 134), Byte(14, 134), Byte(15, 134),
     Byte(16, 134), Byte(17, 134), Byte(18, 134), Byte(3, 134)], // 142
    [Byte(12, 136), Byte(13, 136), Byte(14, 136), Byte(15, 136), Byte(16, 136), Byte(17, 136),
     Byte(18, 136), Byte(3, 136), Byte(12, 146), Byte(13, 146), Byte(14, 146), Byte(15, 146),
     Byte(16, 146), Byte(17, 146), Byte(18, 146), Byte(3, 146)], // 143
    [Byte(12, 154), Byte(13, 154), Byte(14, 154), Byte(15, 154), Byte(16, 154), Byte(17, 154),
     Byte(18, 154), Byte(3, 154), Byte(12, 156), Byte(13, 156), Byte(14, 156), Byte(15, 156),
     Byte(16, 156), Byte(17, 156), Byte(18, 156), Byte(3, 156)], // 144
    [Byte(12, 160), Byte(13, 160), Byte(14, 160), Byte(15, 160), Byte(16, 160), Byte(17, 160),
     Byte(18, 160), Byte(3, 160), Byte(12, 163), Byte(13, 163), Byte(14, 163), Byte(15, 163),
     Byte(16, 163), Byte(17, 163), Byte(18, 163), Byte(3, 163)], // 145
    [Byte(12, 164), Byte(13, 164), Byte(14, 164), Byte(15, 164), Byte(16, 164), Byte(17, 164),
     Byte(18, 164), Byte(3, 164), Byte(12, 169), Byte(13, 169), Byte(14, 169), Byte(15, 169),
     Byte(16, 169), Byte(17, 169), Byte(18, 169), Byte(3, 169)], // 146
    [Byte(12, 170), Byte(13, 170), Byte(14, 170), Byte(15, 170), Byte(16, 170), Byte(17, 170),
     Byte(18, 170), Byte(3, 170), Byte(12, 173), Byte(13, 173), Byte(14, 173), Byte(15, 173),
     Byte(16, 173), Byte(17, 173), Byte(18, 173), Byte(3, 173)], // 147
    [Byte(12, 178), Byte(13, 178), Byte(14, 178), Byte(15, 178), Byte(16, 178), Byte(17, 178),
     Byte(18, 178), Byte(3, 178), Byte(12, 181), Byte(13, 181), Byte(14, 181), Byte(15, 181),
     Byte(16, 181), Byte(17, 181), Byte(18, 181), Byte(3, 181)], // 148
    [Byte(12, 185), Byte(13, 185), Byte(14, 185), Byte(15, 185), Byte(16, 185), Byte(17, 185),
     Byte(18, 185), Byte(3, 185), Byte(12, 186), Byte(13, 186), Byte(14, 186), Byte(15, 186),
     Byte(16, 186), Byte(17, 186), Byte(18, 186), Byte(3, 186)], // 149
    [Byte(12, 187), Byte(13, 187), Byte(14, 187), Byte(15, 187), Byte(16, 187), Byte(17, 187),
     Byte(18, 187), Byte(3, 187), Byte(12, 189), Byte(13, 189), Byte(14, 189), Byte(15, 189),
     Byte(16, 189), Byte(17, 189), Byte(18, 189), Byte(3, 189)], // 150
    [Byte(12, 190), Byte(13, 190), Byte(14, 190), Byte(15, 190), Byte(16, 190), Byte(17, 190),
     Byte(18, 190), Byte(3, 190), Byte(12, 196), Byte(13, 196), Byte(14, 196), Byte(15, 196),
     Byte(16, 196), Byte(17, 196), Byte(18, 196), Byte(3, 196)], // 151
    [Byte(12, 198), Byte(13, 198), Byte(14, 198), Byte(15, 198), Byte(16, 198), Byte(17, 198),
     Byte(18, 198), Byte(3, 198), Byte(12, 228), Byte(13, 228), Byte(14, 228), Byte(15, 228),
     Byte(16, 228), Byte(17, 228), Byte(18, 228), Byte(3, 228)], // 152
    [Byte(12, 232), Byte(13, 232), Byte(14, 232), Byte(15, 232), Byte(16, 232), Byte(17, 232),
     Byte(18, 232), Byte(3, 232), Byte(12, 233), Byte(13, 233), Byte(14, 233), Byte(15, 233),
     Byte(16, 233), Byte(17, 233), Byte(18, 233), Byte(3, 233)], // 153
    [Byte(9, 1), Byte(10, 1), Byte(11, 1), Byte(2, 1), Byte(9, 135), Byte(10, 135), Byte(11, 135),
     Byte(2, 135), Byte(9, 137), Byte(10, 137), Byte(11, 137), Byte(2, 137), Byte(9, 138),
     Byte(10, 138), Byte(11, 138), Byte(2, 138)], // 154
    [Byte(9, 139), Byte(10, 139), Byte(11, 139), Byte(2, 139), Byte(9, 140), Byte(10, 140),
     Byte(11, 140), Byte(2, 140), Byte(9, 141), Byte(10, 141), Byte(11, 141), Byte(2, 141),
     Byte(9, 143), Byte(10, 143), Byte(11, 143), Byte(2, 143)], // 155
    [Byte(9, 147), Byte(10, 147), Byte(11, 147), Byte(2, 147), Byte(9, 149), Byte(10, 149),
     Byte(11, 149), Byte(2, 149), Byte(9, 150), Byte(10, 150), Byte(11, 150), Byte(2, 150),
     Byte(9, 151), Byte(10, 151), Byte(11, 151), Byte(2, 151)], // 156
    [Byte(9, 152), Byte(10, 152), Byte(11, 152), Byte(2, 152), Byte(9, 155), Byte(10, 155),
     Byte(11, 155), Byte(2, 155), Byte(9, 157), Byte(10, 157), Byte(11, 157), Byte(2, 157),
     Byte(9, 158), Byte(10, 158), Byte(11, 158), Byte(2, 158)], // 157
    [Byte(9, 165), Byte(10, 165), Byte(11, 165), Byte(2, 165), Byte(9, 166), Byte(10, 166),
     Byte(11, 166), Byte(2, 166), Byte(9, 168), Byte(10, 168), Byte(11, 168), Byte(2, 168),
     Byte(9, 174), Byte(10, 174), Byte(11, 174), Byte(2, 174)], // 158
    [Byte(9, 175), Byte(10, 175), Byte(11, 175), Byte(2, 175), Byte(9, 180), Byte(10, 180),
     Byte(11, 180), Byte(2, 180), Byte(9, 182), Byte(10, 182), Byte(11, 182), Byte(2, 182),
     Byte(9, 183), Byte(10, 183), Byte(11, 183), Byte(2, 183)], // 159
    [Byte(9, 188), Byte(10, 188), Byte(11, 188), Byte(2, 188), Byte(9, 191), Byte(10, 191),
     Byte(11, 191), Byte(2, 191), Byte(9, 197), Byte(10, 197), Byte(11, 197), Byte(2, 197),
     Byte(9, 231), Byte(10, 231), Byte(11, 231), Byte(2, 231)], // 160
    [Byte(9, 239), Byte(10, 239), Byte(11, 239), Byte(2, 239), Byte(8, 9), Byte(1, 9), Byte(8, 142),
     Byte(1, 142), Byte(8, 144), Byte(1, 144), Byte(8, 145), Byte(1, 145), Byte(8, 148),
     Byte(1, 148), Byte(8, 159), Byte(1, 159)], // 161
    [Byte(8, 171), Byte(1, 171), Byte(8, 206), Byte(1, 206), Byte(8, 215), Byte(1, 215),
     Byte(8, 225), Byte(1, 225), Byte(8, 236), Byte(1, 236), Byte(8, 237), Byte(1, 237),
     Byte(0, 199), Byte(0, 207), Byte(0, 234), Byte(0, 235)], // 162
    [On(205), On(206), On(207), On(208), On(209), On(210), On(211), On(212), On(213), On(214),
     On(215), On(216), On(217), On(218), On(219), On(220)], // 163
    [Byte(12, 1), Byte(13, 1), Byte(14, 1), Byte(15, 1), Byte(16, 1), Byte(17, 1), Byte(18, 1),
     Byte(3, 1), Byte(12, 135), Byte(13, 135), Byte(14, 135), Byte(15, 135), Byte(16, 135),
     Byte(17, 135), Byte(18, 135), Byte(3, 135)], // 164
    [Byte(12, 137), Byte(13, 137), Byte(14, 137), Byte(15, 137), Byte(16, 137), Byte(17, 137),
     Byte(18, 137), Byte(3, 137), Byte(12, 138), Byte(13, 138), Byte(14, 138), Byte(15, 138),
     Byte(16, 138), Byte(17, 138), Byte(18, 138), Byte(3, 138)], // 165
    [Byte(12, 139), Byte(13, 139), Byte(14, 139), Byte(15, 139), Byte(16, 139), Byte(17, 139),
     Byte(18, 139), Byte(3, 139), Byte(12, 140), Byte(13, 140), Byte(14, 140), Byte(15, 140),
     Byte(16, 140), Byte(17, 140), Byte(18, 140), Byte(3, 140)], // 166
    [Byte(12, 141), Byte(13, 141), Byte(14, 141), Byte(15, 141), Byte(16, 141), Byte(17, 141),
     Byte(18, 141), Byte(3, 141), Byte(12, 143), Byte(13, 143), Byte(14, 143), Byte(15, 143),
     Byte(16, 143), Byte(17, 143), Byte(18, 143), Byte(3, 143)], // 167
    [Byte(12, 147), Byte(13, 147), Byte(14, 147), Byte(15, 147), Byte(16, 147), Byte(17, 147),
     Byte(18, 147), Byte(3, 147), Byte(12, 149), Byte(13, 149), Byte(14, 149), Byte(15, 149),
     Byte(16, 149), Byte(17, 149), Byte(18, 149), Byte(3, 149)], // 168
    [Byte(12, 150), Byte(13, 150), Byte(14, 150), Byte(15, 150), Byte(16, 150), Byte(17, 150),
     Byte(18, 150), Byte(3, 150), Byte(12, 151), Byte(13, 151), Byte(14, 151), Byte(15, 151),
     Byte(16, 151), Byte(17, 151), Byte(18, 151), Byte(3, 151)], // 169
    [Byte(12, 152), Byte(13, 152), Byte(14, 152), Byte(15, 152), Byte(16, 152), Byte(17, 152),
     Byte(18, 152), Byte(3, 152), Byte(12, 155), Byte(13, 155), Byte(14, 155), Byte(15, 155),
     Byte(16, 155), Byte(17, 155), Byte(18, 155), Byte(3, 155)], // 170
    [Byte(12, 157), Byte(13, 157), Byte(14, 157), Byte(15, 157), Byte(16, 157), Byte(17, 157),
     Byte(18, 157), Byte(3, 157), Byte(12, 158), Byte(13, 158), Byte(14, 158), Byte(15, 158),
     Byte(16, 158), Byte(17, 158), Byte(18, 158), Byte(3, 158)], // 171
    [Byte(12, 165), Byte(13, 165), Byte(14, 165), Byte(15, 165), Byte(16, 165), Byte(17, 165),
     Byte(18, 165), Byte(3, 165), Byte(12, 166), Byte(13, 166), Byte(14, 166), Byte(15, 166),
     Byte(16, 166), Byte(17, 166), Byte(18, 166), Byte(3, 166)], // 172
    [Byte(12, 168), Byte(13, 168), Byte(14, 168), Byte(15, 168), Byte(16, 168), Byte(17, 168),
     Byte(18, 168), Byte(3, 168), Byte(12, 174), Byte(13, 174), Byte(14, 174), Byte(15, 174),
     Byte(16, 174), Byte(17, 174), Byte(18, 174), Byte(3, 174)], // 173
    [Byte(12, 175), Byte(13, 175), Byte(14, 175), Byte(15, 175), Byte(16, 175), Byte(17, 175),
     Byte(18, 175), Byte(3, 175), Byte(12, 180), Byte(13, 180), Byte(14, 180), Byte(15, 180),
     Byte(16, 180), Byte(17, 180), Byte(18, 180), Byte(3, 180)], // 174
    [Byte(12, 182), Byte(13, 182), Byte(14, 182), Byte(15, 182), Byte(16, 182), Byte(17, 182),
     Byte(18, 182), Byte(3, 182), Byte(12, 183), Byte(13, 183), Byte(14, 183), Byte(15, 183),
     Byte(16, 183), Byte(17, 183), Byte(18, 183), Byte(3, 183)], // 175
    [Byte(12, 188), Byte(13, 188), Byte(14, 188), Byte(15, 188), Byte(16, 188), Byte(17, 188),
     Byte(18, 188), Byte(3, 188), Byte(12, 191), Byte(13, 191), Byte(14, 191), Byte(15, 191),
     Byte(16, 191), Byte(17, 191), Byte(18, 191), Byte(3, 191)], // 176
    [Byte(12, 197), Byte(13, 197), Byte(14, 197), Byte(15, 197), Byte(16, 197), Byte(17, 197),
     Byte(18, 197), Byte(3, 197), Byte(12, 231), Byte(13, 231), Byte(14, 231), Byte(15, 231),
     Byte(16, 231), Byte(17, 231), Byte(18, 231), Byte(3, 231)], // 177
    [Byte(12, 239), Byte(13, 239), Byte(14, 239), Byte(15, 239), Byte(16, 239), Byte(17, 239),
     Byte(18, 239), Byte(3, 239), Byte(9, 9), Byte(10, 9), Byte(11, 9), Byte(2, 9), Byte(9, 142),
     Byte(10, 142), Byte(11, 142), Byte(2, 142)], // 178
    [Byte(9, 144), Byte(10, 144), Byte(11, 144), Byte(2, 144), Byte(9, 145), Byte(10, 145),
     Byte(11, 145), Byte(2, 145), Byte(9, 148), Byte(10, 148), Byte(11, 148), Byte(2, 148),
     Byte(9, 159), Byte(10, 159), Byte(11, 159), Byte(2, 159)], // 179
    [Byte(9, 171), Byte(10, 171), Byte(11, 171), Byte(2, 171), Byte(9, 206), Byte(10, 206),
     Byte(11, 206), Byte(2, 206), Byte(9, 215), Byte(10, 215), Byte(11, 215), Byte(2, 215),
     Byte(9, 225), Byte(10, 225), Byte(11, 225), Byte(2, 225)], // 180
    [Byte(9, 236), Byte(10, 236), Byte(11, 236), Byte(2, 236), Byte(9, 237), Byte(10, 237),
     Byte(11, 237), Byte(2, 237), Byte(8, 199), Byte(1, 199), Byte(8, 207), Byte(1, 207),
     Byte(8, 234), Byte(1, 234), Byte(8, 235), Byte(1, 235)], // 181
    [Byte(0, 192), Byte(0, 193), Byte(0, 200), Byte(0, 201), Byte(0, 202), Byte(0, 205),
     Byte(0, 210), Byte(0, 213), Byte(0, 218), Byte(0, 219), Byte(0, 238), Byte(0, 240),
     Byte(0, 242), Byte(0, 243), Byte(0, 255), On(221)], // 182
    [On(222), On(223), On(224), On(225), On(226), On(227), On(228), On(229), On(230), On(231),
     On(232), On(233), On(234), On(235), On(236), On(237)], // 183
    [Byte(12, 9), Byte(13, 9), Byte(14, 9), Byte(15, 9), Byte(16, 9), Byte(17, 9), Byte(18, 9),
     Byte(3, 9), Byte(12, 142), Byte(13, 142), Byte(14, 142), Byte(15, 142), Byte(16, 142),
     Byte(17, 142), Byte(18, 142), Byte(3, 142)], // 184
    [Byte(12, 144), Byte(13, 144), Byte(14, 144), Byte(15, 144), Byte(16, 144), Byte(17, 144),
     Byte(18, 144), Byte(3, 144), Byte(12, 145), Byte(13, 145), Byte(14, 145), Byte(15, 145),
     Byte(16, 145), Byte(17, 145), Byte(18, 145), Byte(3, 145)], // 185
    [Byte(12, 148), Byte(13, 148), Byte(14, 148), Byte(15, 148), Byte(16, 148), Byte(17, 148),
     Byte(18, 148), Byte(3, 148), Byte(12, 159), Byte(13, 159), Byte(14, 159), Byte(15, 159),
     Byte(16, 159), Byte(17, 159), Byte(18, 159), Byte(3, 159)], // 186
    [Byte(12, 171), Byte(13, 171), Byte(14, 171), Byte(15, 171), Byte(16, 171), Byte(17, 171),
     Byte(18, 171), Byte(3, 171), Byte(12, 206), Byte(13, 206), Byte(14, 206), Byte(15, 206),
     Byte(16, 206), Byte(17, 206), Byte(18, 206), Byte(3, 206)], // 187
    [Byte(12, 215), Byte(13, 215), Byte(14, 215), Byte(15, 215), Byte(16, 215), Byte(17, 215),
     Byte(18, 215), Byte(3, 215), Byte(12, 225), Byte(13, 225), Byte(14, 225), Byte(15, 225),
     Byte(16, 225), Byte(17, 225), Byte(18, 225), Byte(3, 225)], // 188
    [Byte(12, 236), Byte(13, 236), Byte(14, 236), Byte(15, 236), Byte(16, 236), Byte(17, 236),
     Byte(18, 236), Byte(3, 236), Byte(12, 237), Byte(13, 237), Byte(14, 237), Byte(15, 237),
     Byte(16, 237), Byte(17, 237), Byte(18, 237), Byte(3, 237)], // 189
    [Byte(9, 199), Byte(10, 199), Byte(11, 199), Byte(2, 199), Byte(9, 207), Byte(10, 207),
     Byte(11, 207), Byte(2, 207), Byte(9, 234), Byte(10, 234), Byte(11, 234), Byte(2, 234),
     Byte(9, 235), Byte(10, 235), Byte(11, 235), Byte(2, 235)], // 190
    [Byte(8, 192), Byte(1, 192), Byte(8, 193), Byte(1, 193), Byte(8, 200), Byte(1, 200),
     Byte(8, 201), Byte(1, 201), Byte(8, 202), Byte(1, 202), Byte(8, 205), Byte(1, 205),
     Byte(8, 210), Byte(1, 210), Byte(8, 213), Byte(1, 213)], // 191
    [Byte(8, 218), Byte(1, 218), Byte(8, 219), Byte(1, 219), Byte(8, 238), Byte(1, 238),
     Byte(8, 240), Byte(1, 240), Byte(8, 242), Byte(1, 242), Byte(8, 243), Byte(1, 243),
     Byte(8, 255), Byte(1, 255), Byte(0, 203), Byte(0, 204)], // 192
    [Byte(0, 211), Byte(0, 212), Byte(0, 214), Byte(0, 221), Byte(0, 222), Byte(0, 223),
     Byte(0, 241), Byte(0, 244), Byte(0, 245), Byte(0, 246), Byte(0, 247), Byte(0, 248),
     Byte(0, 250), Byte(0, 251), Byte(0, 252), Byte(0, 253)], // 193
    [Byte(0, 254), On(238), On(239), On(240), On(241), On(242), On(243), On(244), On(245), On(246),
     On(247), On(248), On(249), On(250), On(251), On(252)], // 194
    [Byte(12, 199), Byte(13, 199), Byte(14, 199), Byte(15, 199), Byte(16, 199), Byte(17, 199),
     Byte(18, 199), Byte(3, 199), Byte(12, 207), Byte(13, 207), Byte(14, 207), Byte(15, 207),
     Byte(16, 207), Byte(17, 207), Byte(18, 207), Byte(3, 207)], // 195
    [Byte(12, 234), Byte(13, 234), Byte(14, 234), Byte(15, 234), Byte(16, 234), Byte(17, 234),
     Byte(18, 234), Byte(3, 234), Byte(12, 235), Byte(13, 235), Byte(14, 235), Byte(15, 235),
     Byte(16, 235), Byte(17, 235), Byte(18, 235), Byte(3, 235)], // 196
    [Byte(9, 192), Byte(10, 192), Byte(11, 192), Byte(2, 192), Byte(9, 193), Byte(10, 193),
     Byte(11, 193), Byte(2, 193), Byte(9, 200), Byte(10, 200), Byte(11, 200), Byte(2, 200),
     Byte(9, 201), Byte(10, 201), Byte(11, 201), Byte(2, 201)], // 197
    [Byte(9, 202), Byte(10, 202), Byte(11, 202), Byte(2, 202), Byte(9, 205), Byte(10, 205),
     Byte(11, 205), Byte(2, 205), Byte(9, 210), Byte(10, 210), Byte(11, 210), Byte(2, 210),
     Byte(9, 213), Byte(10, 213), Byte(11, 213), Byte(2, 213)], // 198
    [Byte(9, 218), Byte(10, 218), Byte(11, 218), Byte(2, 218), Byte(9, 219), Byte(10, 219),
     Byte(11, 219), Byte(2, 219), Byte(9, 238), Byte(10, 238), Byte(11, 238), Byte(2, 238),
     Byte(9, 240), Byte(10, 240), Byte(11, 240), Byte(2, 240)], // 199
    [Byte(9, 242), Byte(10, 242), Byte(11, 242), Byte(2, 242), Byte(9, 243), Byte(10, 243),
     Byte(11, 243), Byte(2, 243), Byte(9, 255), Byte(10, 255), Byte(11, 255), Byte(2, 255),
     Byte(8, 203), Byte(1, 203), Byte(8, 204), Byte(1, 204)], // 200
    [Byte(8, 211), Byte(1, 211), Byte(8, 212), Byte(1, 212), Byte(8, 214), Byte(1, 214),
     Byte(8, 221), Byte(1, 221), Byte(8, 222), Byte(1, 222), Byte(8, 223), Byte(1, 223),
     Byte(8, 241), Byte(1, 241), Byte(8, 244), Byte(1, 244)], // 201
    [Byte(8, 245), Byte(1, 245), Byte(8, 246), Byte(1, 246), Byte(8, 247), Byte(1, 247),
     Byte(8, 248), Byte(1, 248), Byte(8, 250), Byte(1, 250), Byte(8, 251), Byte(1, 251),
     Byte(8, 252), Byte(1, 252), Byte(8, 253), Byte(1, 253)], // 202
    [Byte(8, 254), Byte(1, 254), Byte(0, 2), Byte(0, 3), Byte(0, 4), Byte(0, 5), Byte(0, 6),
     Byte(0, 7), Byte(0, 8), Byte(0, 11), Byte(0, 12), Byte(0, 14), Byte(0, 15), Byte(0, 16),
     Byte(0, 17), Byte(0, 18)], // 203
    [Byte(0, 19), Byte(0, 20), Byte(0, 21), Byte(0, 23), Byte(0, 24), Byte(0, 25), Byte(0, 26),
     Byte(0, 27), Byte(0, 28), Byte(0, 29), Byte(0, 30), Byte(0, 31), Byte(0, 127), Byte(0, 220),
     Byte(0, 249), On(253)], // 204
    [Byte(12, 192), Byte(13, 192), Byte(14, 192), Byte(15, 192), Byte(16, 192), Byte(17, 192),
     Byte(18, 192), Byte(3, 192), Byte(12, 193), Byte(13, 193), Byte(14, 193), Byte(15, 193),
     Byte(16, 193), Byte(17, 193), Byte(18, 193), Byte(3, 193)], // 205
    [Byte(12, 200), Byte(13, 200), Byte(14, 200), Byte(15, 200), Byte(16, 200), Byte(17, 200),
     Byte(18, 200), Byte(3, 200), Byte(12, 201), Byte(13, 201), Byte(14, 201), Byte(15, 201),
     Byte(16, 201), Byte(17, 201), Byte(18, 201), Byte(3, 201)], // 206
    [Byte(12, 202), Byte(13, 202), Byte(14, 202), Byte(15, 202), Byte(16, 202), Byte(17, 202),
     Byte(18, 202), Byte(3, 202), Byte(12, 205), Byte(13, 205), Byte(14, 205), Byte(15, 205),
     Byte(16, 205), Byte(17, 205), Byte(18, 205), Byte(3, 205)], // 207
    [Byte(12, 210), Byte(13, 210), Byte(14, 210), Byte(15, 210), Byte(16, 210), Byte(17, 210),
     Byte(18, 210), Byte(3, 210), Byte(12, 213), Byte(13, 213), Byte(14, 213), Byte(15, 213),
     Byte(16, 213), Byte(17, 213), Byte(18, 213), Byte(3, 213)], // 208
    [Byte(12, 218), Byte(13, 218), Byte(14, 218), Byte(15, 218), Byte(16, 218), Byte(17, 218),
     Byte(18, 218), Byte(3, 218), Byte(12, 219), Byte(13, 219), Byte(14, 219), Byte(15, 219),
     Byte(16, 219), Byte(17, 219), Byte(18, 219), Byte(3, 219)], // 209
    [Byte(12, 238), Byte(13, 238), Byte(14, 238), Byte(15, 238), Byte(16, 238), Byte(17, 238),
     Byte(18, 238), Byte(3, 238), Byte(12, 240), Byte(13, 240), Byte(14, 240), Byte(15, 240),
     Byte(16, 240), Byte(17, 240), Byte(18, 240), Byte(3, 240)], // 210
    [Byte(12, 242), Byte(13, 242), Byte(14, 242), Byte(15, 242), Byte(16, 242), Byte(17, 242),
     Byte(18, 242), Byte(3, 242), Byte(12, 243), Byte(13, 243), Byte(14, 243), Byte(15, 243),
     Byte(16, 243), Byte(17, 243), Byte(18, 243), Byte(3, 243)], // 211
    [Byte(12, 255), Byte(13, 255), Byte(14, 255), Byte(15, 255), Byte(16, 255), Byte(17, 255),
     Byte(18, 255), Byte(3, 255), Byte(9, 203), Byte(10, 203), Byte(11, 203), Byte(2, 203),
     Byte(9, 204), Byte(10, 204), Byte(11, 204), Byte(2, 204)], // 212
    [Byte(9, 211), Byte(10, 211), Byte(11, 211), Byte(2, 211), Byte(9, 212), Byte(10, 212),
     Byte(11, 212), Byte(2, 212), Byte(9, 214), Byte(10, 214), Byte(11, 214), Byte(2, 214),
     Byte(9, 221), Byte(10, 221), Byte(11, 221), Byte(2, 221)], // 213
    [Byte(9, 222), Byte(10, 222), Byte(11, 222), Byte(2, 222), Byte(9, 223), Byte(10, 223),
     Byte(11, 223), Byte(2, 223), Byte(9, 241), Byte(10, 241), Byte(11, 241), Byte(2, 241),
     Byte(9, 244), Byte(10, 244), Byte(11, 244), Byte(2, 244)], // 214
    [Byte(9, 245), Byte(10, 245), Byte(11, 245), Byte(2, 245), Byte(9, 246), Byte(10, 246),
     Byte(11, 246), Byte(2, 246), Byte(9, 247), Byte(10, 247), Byte(11, 247), Byte(2, 247),
     Byte(9, 248), Byte(10, 248), Byte(11, 248), Byte(2, 248)], // 215
    [Byte(9, 250), Byte(10, 250), Byte(11, 250), Byte(2, 250), Byte(9, 251), Byte(10, 251),
     Byte(11, 251), Byte(2, 251), Byte(9, 252), Byte(10, 252), Byte(11, 252), Byte(2, 252),
     Byte(9, 253), Byte(10, 253), Byte(11, 253), Byte(2, 253)], // 216
    [Byte(9, 254), Byte(10, 254), Byte(11, 254), Byte(2, 254), Byte(8, 2), Byte(1, 2), Byte(8, 3),
     Byte(1, 3), Byte(8, 4), Byte(1, 4), Byte(8, 5), Byte(1, 5), Byte(8, 6), Byte(1, 6), Byte(8, 7),
     Byte(1, 7)], // 217
    [Byte(8, 8), Byte(1, 8), Byte(8, 11), Byte(1, 11), Byte(8, 12), Byte(1, 12), Byte(8, 14),
     Byte(1, 14), Byte(8, 15), Byte(1, 15), Byte(8, 16), Byte(1, 16), Byte(8, 17), Byte(1, 17),
     Byte(8, 18), Byte(1, 18)], // 218
    [Byte(8, 19), Byte(1, 19), Byte(8, 20), Byte(1, 20), Byte(8, 21), Byte(1, 21), Byte(8, 23),
     Byte(1, 23), Byte(8, 24), Byte(1, 24), Byte(8, 25), Byte(1, 25), Byte(8, 26), Byte(1, 26),
     Byte(8, 27), Byte(1, 27)], // 219
    [Byte(8, 28), Byte(1, 28), Byte(8, 29), Byte(1, 29), Byte(8, 30), Byte(1, 30), Byte(8, 31),
     Byte(1, 31), Byte(8, 127), Byte(1, 127), Byte(8, 220), Byte(1, 220), Byte(8, 249),
     Byte(1, 249), On(254), On(255)], // 220
    [Byte(12, 203), Byte(13, 203), Byte(14, 203), Byte(15, 203), Byte(16, 203), Byte(17, 203),
     Byte(18, 203), Byte(3, 203), Byte(12, 204), Byte(13, 204), Byte(14, 204), Byte(15, 204),
     Byte(16, 204), Byte(17, 204), Byte(18, 204), Byte(3, 204)], // 221
    [Byte(12, 211), Byte(13, 211), Byte(14, 211), Byte(15, 211), Byte(16, 211), Byte(17, 211),
     Byte(18, 211), Byte(3, 211), Byte(12, 212), Byte(13, 212), Byte(14, 212), Byte(15, 212),
     Byte(16, 212), Byte(17, 212), Byte(18, 212), Byte(3, 212)], // 222
    [Byte(12, 214), Byte(13, 214), Byte(14, 214), Byte(15, 214), Byte(16, 214), Byte(17, 214),
     Byte(18, 214), Byte(3, 214), Byte(12, 221), Byte(13, 221), Byte(14, 221), Byte(15, 221),
     Byte(16, 221), Byte(17, 221), Byte(18, 221), Byte(3, 221)], // 223
    [Byte(12, 222), Byte(13, 222), Byte(14, 222), Byte(15, 222), Byte(16, 222), Byte(17, 222),
     Byte(18, 222), Byte(3, 222), Byte(12, 223), Byte(13, 223), Byte(14, 223), Byte(15, 223),
     Byte(16, 223), Byte(17, 223), Byte(18, 223), Byte(3, 223)], // 224
    [Byte(12, 241), Byte(13, 241), Byte(14, 241), Byte(15, 241), Byte(16, 241), Byte(17, 241),
     Byte(18, 241), Byte(3, 241), Byte(12, 244), Byte(13, 244), Byte(14, 244), Byte(15, 244),
     Byte(16, 244), Byte(17, 244), Byte(18, 244), Byte(3, 244)], // 225
    [Byte(12, 245), Byte(13, 245), Byte(14, 245), Byte(15, 245), Byte(16, 245), Byte(17, 245),
     Byte(18, 245), Byte(3, 245), Byte(12, 246), Byte(13, 246), Byte(14, 246), Byte(15, 246),
     Byte(16, 246), Byte(17, 246), Byte(18, 246), Byte(3, 246)], // 226
    [Byte(12, 247), Byte(13, 247), Byte(14, 247), Byte(15, 247), Byte(16, 247), Byte(17, 247),
     Byte(18, 247), Byte(3, 247), Byte(12, 248), Byte(13, 248), Byte(14, 248), Byte(15, 248),
     Byte(16, 248), Byte(17, 248), Byte(18, 248), Byte(3, 248)], // 227
    [Byte(12, 250), Byte(13, 250), Byte(14, 250), Byte(15, 250), Byte(16, 250), Byte(17, 250),
     Byte(18, 250), Byte(3, 250), Byte(12, 251), Byte(13, 251), Byte(14, 251), Byte(15, 251),
     Byte(16, 251), Byte(17, 251), Byte(18, 251), Byte(3, 251)], // 228
    [Byte(12, 252), Byte(13, 252), Byte(14, 252), Byte(15, 252), Byte(16, 252), Byte(17, 252),
     Byte(18, 252), Byte(3, 252), Byte(12, 253), Byte(13, 253), Byte(14, 253), Byte(15, 253),
     Byte(16, 253), Byte(17, 253), Byte(18, 253), Byte(3, 253)], // 229
    [Byte(12, 254), Byte(13, 254), Byte(14, 254), Byte(15, 254), Byte(16, 254), Byte(17, 254),
     Byte(18, 254), Byte(3, 254), Byte(9, 2), Byte(10, 2), Byte(11, 2), Byte(2, 2), Byte(9, 3),
     Byte(10, 3), Byte(11, 3), Byte(2, 3)], // 230
    [Byte(9, 4), Byte(10, 4), Byte(11, 4), Byte(2, 4), Byte(9, 5), Byte(10, 5), Byte(11, 5),
     Byte(2, 5), Byte(9, 6), Byte(10, 6), Byte(11, 6), Byte(2, 6), Byte(9, 7), Byte(10, 7),
     Byte(11, 7), Byte(2, 7)], // 231
    [Byte(9, 8), Byte(10, 8), Byte(11, 8), Byte(2, 8), Byte(9, 11), Byte(10, 11), Byte(11, 11),
     Byte(2, 11), Byte(9, 12), Byte(10, 12), Byte(11, 12), Byte(2, 12), Byte(9, 14), Byte(10, 14),
     Byte(11, 14), Byte(2, 14)], // 232
    [Byte(9, 15), Byte(10, 15), Byte(11, 15), Byte(2, 15), Byte(9, 16), Byte(10, 16), Byte(11, 16),
     Byte(2, 16), Byte(9, 17), Byte(10, 17), Byte(11, 17), Byte(2, 17), Byte(9, 18), Byte(10, 18),
     Byte(11, 18), Byte(2, 18)], // 233
    [Byte(9, 19), Byte(10, 19), Byte(11, 19), Byte(2, 19), Byte(9, 20), Byte(10, 20), Byte(11, 20),
     Byte(2, 20), Byte(9, 21), Byte(10, 21), Byte(11, 21), Byte(2, 21), Byte(9, 23), Byte(10, 23),
     Byte(11, 23), Byte(2, 23)], // 234
    [Byte(9, 24), Byte(10, 24), Byte(11, 24), Byte(2, 24), Byte(9, 25), Byte(10, 25), Byte(11, 25),
     Byte(2, 25), Byte(9, 26), Byte(10, 26), Byte(11, 26), Byte(2, 26), Byte(9, 27), Byte(10, 27),
     Byte(11, 27), Byte(2, 27)], // 235
    [Byte(9, 28), Byte(10, 28), Byte(11, 28), Byte(2, 28), Byte(9, 29), Byte(10, 29), Byte(11, 29),
     Byte(2, 29), Byte(9, 30), Byte(10, 30), Byte(11, 30), Byte(2, 30), Byte(9, 31), Byte(10, 31),
     Byte(11, 31), Byte(2, 31)], // 236
    [Byte(9, 127), Byte(10, 127), Byte(11, 127), Byte(2, 127), Byte(9, 220), Byte(10, 220),
     Byte(11, 220), Byte(2, 220), Byte(9, 249), Byte(10, 249), Byte(11, 249), Byte(2, 249),
     Byte(0, 10), Byte(0, 13), Byte(0, 22), End], // 237
    [Byte(12, 2), Byte(13, 2), Byte(14, 2), Byte(15, 2), Byte(16, 2), Byte(17, 2), Byte(18, 2),
     Byte(3, 2), Byte(12, 3), Byte(13, 3), Byte(14, 3), Byte(15, 3), Byte(16, 3), Byte(17, 3),
     Byte(18, 3), Byte(3, 3)], // 238
    [Byte(12, 4), Byte(13, 4), Byte(14, 4), Byte(15, 4), Byte(16, 4), Byte(17, 4), Byte(18, 4),
     Byte(3, 4), Byte(12, 5), Byte(13, 5), Byte(14, 5), Byte(15, 5), Byte(16, 5), Byte(17, 5),
     Byte(18, 5), Byte(3, 5)], // 239
    [Byte(12, 6), Byte(13, 6), Byte(14, 6), Byte(15, 6), Byte(16, 6), Byte(17, 6), Byte(18, 6),
     Byte(3, 6), Byte(12, 7), Byte(13, 7), Byte(14, 7), Byte(15, 7), Byte(16, 7), Byte(17, 7),
     Byte(18, 7), Byte(3, 7)], // 240
    [Byte(12, 8), Byte(13, 8), Byte(14, 8), Byte(15, 8), Byte(16, 8), Byte(17, 8), Byte(18, 8),
     Byte(3, 8), Byte(12, 11), Byte(13, 11), Byte(14, 11), Byte(15, 11), Byte(16, 11), Byte(17, 11),
     Byte(18, 11), Byte(3, 11)], // 241
    [Byte(12, 12), Byte(13, 12), Byte(14, 12), Byte(15, 12), Byte(16, 12), Byte(17, 12),
     Byte(18, 12), Byte(3, 12), Byte(12, 14), Byte(13, 14), Byte(14, 14), Byte(15, 14),
     Byte(16, 14), Byte(17, 14), Byte(18, 14), Byte(3, 14)], // 242
    [Byte(12, 15), Byte(13, 15), Byte(14, 15), Byte(15, 15), Byte(16, 15), Byte(17, 15),
     Byte(18, 15), Byte(3, 15), Byte(12, 16), Byte(13, 16), Byte(14, 16), Byte(15, 16),
     Byte(16, 16), Byte(17, 16), Byte(18, 16), Byte(3, 16)], // 243
    [Byte(12, 17), Byte(13, 17), Byte(14, 17), Byte(15, 17), Byte(16, 17), Byte(17, 17),
     Byte(18, 17), Byte(3, 17), Byte(12, 18), Byte(13, 18), Byte(14, 18), Byte(15, 18),
     Byte(16, 18), Byte(17, 18), Byte(18, 18), Byte(3, 18)], // 244
    [Byte(12, 19), Byte(13, 19), Byte(14, 19), Byte(15, 19), Byte(16, 19), Byte(17, 19),
     Byte(18, 19), Byte(3, 19), Byte(12, 20), Byte(13, 20), Byte(14, 20), Byte(15, 20),
     Byte(16, 20), Byte(17, 20), Byte(18, 20), Byte(3, 20)], // 245
    [Byte(12, 21), Byte(13, 21), Byte(14, 21), Byte(15, 21), Byte(16, 21), Byte(17, 21),
     Byte(18, 21), Byte(3, 21), Byte(12, 23), Byte(13, 23), Byte(14, 23), Byte(15, 23),
     Byte(16, 23), Byte(17, 23), Byte(18, 23), Byte(3, 23)], // 246
    [Byte(12, 24), Byte(13, 24), Byte(14, 24), Byte(15, 24), Byte(16, 24), Byte(17, 24),
     Byte(18, 24), Byte(3, 24), Byte(12, 25), Byte(13, 25), Byte(14, 25), Byte(15, 25),
     Byte(16, 25), Byte(17, 25), Byte(18, 25), Byte(3, 25)], // 247
    [Byte(12, 26), Byte(13, 26), Byte(14, 26), Byte(15, 26), Byte(16, 26), Byte(17, 26),
     Byte(18, 26), Byte(3, 26), Byte(12, 27), Byte(13, 27), Byte(14, 27), Byte(15, 27),
     Byte(16, 27), Byte(17, 27), Byte(18, 27), Byte(3, 27)], // 248
    [Byte(12, 28), Byte(13, 28), Byte(14, 28), Byte(15, 28), Byte(16, 28), Byte(17, 28),
     Byte(18, 28), Byte(3, 28), Byte(12, 29), Byte(13, 29), Byte(14, 29), Byte(15, 29),
     Byte(16, 29), Byte(17, 29), Byte(18, 29), Byte(3, 29)], // 249
    [Byte(12, 30), Byte(13, 30), Byte(14, 30), Byte(15, 30), Byte(16, 30), Byte(17, 30),
     Byte(18, 30), Byte(3, 30), Byte(12, 31), Byte(13, 31), Byte(14, 31), Byte(15, 31),
     Byte(16, 31), Byte(17, 31), Byte(18, 31), Byte(3, 31)], // 250
    [Byte(12, 127), Byte(13, 127), Byte(14, 127), Byte(15, 127), Byte(16, 127), Byte(17, 127),
     Byte(18, 127), Byte(3, 127), Byte(12, 220), Byte(13, 220), Byte(14, 220), Byte(15, 220),
     Byte(16, 220), Byte(17, 220), Byte(18, 220), Byte(3, 220)], // 251
    [Byte(12, 249), Byte(13, 249), Byte(14, 249), Byte(15, 249), Byte(16, 249), Byte(17, 249),
     Byte(18, 249), Byte(3, 249), Byte(8, 10), Byte(1, 10), Byte(8, 13), Byte(1, 13), Byte(8, 22),
     Byte(1, 22), End, End], // 252
    [Byte(9, 10), Byte(10, 10), Byte(11, 10), Byte(2, 10), Byte(9, 13), Byte(10, 13), Byte(11, 13),
     Byte(2, 13), Byte(9, 22), Byte(10, 22), Byte(11, 22), Byte(2, 22), End, End, End, End], // 253
    [Byte(12, 10), Byte(13, 10), Byte(14, 10), Byte(15, 10), Byte(16, 10), Byte(17, 10),
     Byte(18, 10), Byte(3, 10), Byte(12, 13), Byte(13, 13), Byte(14, 13), Byte(15, 13),
     Byte(16, 13), Byte(17, 13), Byte(18, 13), Byte(3, 13)], // 254
    [Byte(12, 22), Byte(13, 22), Byte(14, 22), Byte(15, 22), Byte(16, 22), Byte(17, 22),
     Byte(18, 22), Byte(3, 22), End, End, End, End, End, End, End, End], // 255
];
